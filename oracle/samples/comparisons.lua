-- Every comparison: registers, constants, immediates, the wrong way round.
local a, b, s = 3, 7, "abc"
print(a == b, a ~= b, a < b, a <= b, a > b, a >= b)
print(a == 3, a ~= 3, a < 4, a <= 3, a > 2, a >= 3, 4 > a, 3 >= a, 2 < a, 3 <= a)
print(a == 3.0, a == 1000, s == "abc", s ~= "abd", s < "abd", nil == false)
if a < b then print("less") end
if not (a < b) then print("never") else print("else") end
while a ~= b do a = a + 1 end
print(a, a == b and "same" or "other")
