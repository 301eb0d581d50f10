-- Recursion, two functions that call each other, a search, tail calls.
local function fib(n) if n < 2 then return n end return fib(n - 1) + fib(n - 2) end
local even, odd
function even(n) if n == 0 then return true end return odd(n - 1) end
function odd(n) if n == 0 then return false end return even(n - 1) end
local function gcd(a, b) return b == 0 and a or gcd(b, a % b) end
local function ackermann(m, n)
  if m == 0 then return n + 1 end
  if n == 0 then return ackermann(m - 1, 1) end
  return ackermann(m - 1, ackermann(m, n - 1))
end
print(fib(15), even(1000), odd(1001), gcd(1071, 462), ackermann(2, 3))
