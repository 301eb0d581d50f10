-- Channel power and occupied bandwidth of a trace, in decibels and in milliwatts.
local trace, width = {}, 0.25
for i = 1, 41 do
  local x = (i - 21) * width
  trace[i] = -30 - 6 * x * x
end
local function milliwatts(db) return 10 ^ (db / 10) end
local total = 0
for _, db in ipairs(trace) do total = total + milliwatts(db) * width end
local sum, low, high = 0
for i, db in ipairs(trace) do
  sum = sum + milliwatts(db) * width
  if not low and sum >= 0.005 * total then low = i end
  if not high and sum >= 0.995 * total then high = i end
end
print(("%.4f dBm"):format(10 * math.log(total, 10)), (high - low) * width)
