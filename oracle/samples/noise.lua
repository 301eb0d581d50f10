-- The noise floor of a trace: sorted levels, the median, and what lies above it.
local state = 12345
local function reading()
  state = (state * 1103515245 + 12345) % 2147483648
  return -100 + state // 65536 % 100 / 10
end
local levels = {}
for i = 1, 25 do levels[i] = reading() + (i % 8 == 0 and 40 or 0) end
local sorted = table.move(levels, 1, #levels, 1, {})
table.sort(sorted)
local median = sorted[#sorted // 2 + 1]
local above = {}
for i, v in ipairs(levels) do
  if v > median + 20 then above[#above + 1] = i end
end
print(median, #above, table.concat(above, ","))
