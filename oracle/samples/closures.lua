-- Counters over their own upvalues.
local function counter(from, step)
  local n = from or 0
  return function()
    n = n + (step or 1)
    return n
  end, function() n = from or 0 end
end
local up, reset = counter(10, 5)
local other = counter()
print(up(), up(), other(), other())
reset()
print(up(), other())
