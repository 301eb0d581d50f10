-- Checks a trace against limit lines and reports every failure.
local limits = {
  {from = 0, to = 10, upper = -30, lower = -90},
  {from = 10, to = 20, upper = -20},
  {from = 20, to = 30, lower = -60},
}
local function check(x, y)
  for n, l in ipairs(limits) do
    if x >= l.from and x < l.to then
      if l.upper and y > l.upper then return n, "above", y - l.upper end
      if l.lower and y < l.lower then return n, "below", l.lower - y end
      return n
    end
  end
end
local failed = 0
for x = 0, 32, 4 do
  local y = -95 + x * 5 % 77
  local n, how, by = check(x, y)
  if how then failed = failed + 1 end
  print(x, y, n or "-", how or "ok", by or 0)
end
print(failed == 0 and "PASS" or "FAIL", failed)
