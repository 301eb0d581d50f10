-- Sweeps a frequency range and prints the level at each point.
local start, stop, points = 10e6, 50e6, 9
local function level(f)
  local d = (f - 30e6) / 5e6
  return -20 - 10 * d * d
end
local step = (stop - start) / (points - 1)
for i = 0, points - 1 do
  local f = start + i * step
  print(string.format("%2d %9.3f MHz %8.2f dBm", i + 1, f / 1e6, level(f)))
end
