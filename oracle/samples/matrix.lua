-- Two matrices multiplied, and one turned over.
local function multiply(a, b)
  local c = {}
  for i = 1, #a do
    c[i] = {}
    for j = 1, #b[1] do
      local sum = 0
      for k = 1, #b do sum = sum + a[i][k] * b[k][j] end
      c[i][j] = sum
    end
  end
  return c
end
local function turned(a)
  local t = {}
  for j = 1, #a[1] do t[j] = {} for i = 1, #a do t[j][i] = a[i][j] end end
  return t
end
for _, row in ipairs(multiply({{1, 2}, {3, 4}, {5, 6}}, turned {{1, 0}, {2, 1}})) do print(table.concat(row, "\t")) end
