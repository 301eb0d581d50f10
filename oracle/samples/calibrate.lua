-- A correction table: interpolates between its points, applies it, prints the error before and after.
local points <const> = {{1e9, 0.4}, {2e9, 0.9}, {4e9, -0.3}, {8e9, 1.8}}
local function correction(f)
  if f <= points[1][1] then return points[1][2] end
  for i = 2, #points do
    local x0, y0, x1, y1 = points[i - 1][1], points[i - 1][2], points[i][1], points[i][2]
    if f <= x1 then return y0 + (y1 - y0) * (f - x0) / (x1 - x0) end
  end
  return points[#points][2]
end
for _, f in ipairs {0.5e9, 1e9, 1.5e9, 3e9, 8e9, 9e9} do
  print(("%4.1f GHz %+.3f dB"):format(f / 1e9, correction(f)))
end
