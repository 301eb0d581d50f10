-- Every arithmetic operator: registers, constants, small integers on either side.
local a, b, x = 17, 5, 2.5
print(a + b, a - b, a * b, a / b, a // b, a % b, a ^ 2, -a)
print(a + 1, 1 + a, a - 1, 1 - a, a + 1000, a - 1000, a * 3, a / 4, a // 4, a % 4)
print(x + 0.5, x - 0.25, x * 1.5, x / 0.5, x // 1, x % 1, x ^ 0.5, -x)
print(-a // b, a // -b, -a % b, a % -b, 7.5 // 2, -7.5 // 2, 1e15 + 0.5)
print(2 ^ 10, 1 / 0, -1 / 0, 3 | 0, 7 // 1.0)
