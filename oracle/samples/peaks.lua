-- Finds the peaks of a trace and re-centres a marker on every one of them.
local trace = {-80, -78, -60, -31, -58, -79, -77, -45, -44, -46, -80, -70, -25, -72}
local centre, span, threshold <const> = 100e6, 14e6, -50
local marker = {frequency = centre}
function marker:recentre(f)
  local moved = f - self.frequency
  self.frequency = f
  return moved
end
local function frequency(i) return centre - span / 2 + (i - 0.5) * span / #trace end
local count = 0
for i = 2, #trace - 1 do
  local left, here, right = trace[i - 1], trace[i], trace[i + 1]
  if here <= threshold then goto next end
  if here > left and here > right then
    count = count + 1
    local moved = marker:recentre(frequency(i))
    print(("peak %d at %.2f MHz, %d dBm, moved %+.2f MHz"):format(count, marker.frequency / 1e6, here, moved / 1e6))
  end
  ::next::
end
print(count .. " peaks")
