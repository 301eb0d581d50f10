-- while, repeat, break, a condition that sees the body's local.
local n, steps = 27, 0
while n ~= 1 do
  n = n % 2 == 0 and n // 2 or 3 * n + 1
  steps = steps + 1
end
print(steps)
repeat
  local half = steps // 2
  steps = half
until half < 10
print(steps)
while true do
  steps = steps + 1
  if steps > 12 then break end
end
repeat local f = function() return steps end until f() > 0
print(steps)
