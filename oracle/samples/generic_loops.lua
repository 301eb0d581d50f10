-- Generic loops: ipairs, next over one pair, an iterator with state, one that is closed.
for i, v in ipairs({"a", "b", nil, "d"}) do print(i, v) end
for k, v in pairs({only = 1}) do print(k, v) end
local function range(n)
  return function(limit, i) if i < limit then return i + 1, i * i end end, n, 0
end
for i, square in range(4) do io.write(i, "=", square, " ") end
print()
local guard = setmetatable({}, {__close = function() print("closed") end})
for i in function(_, i) i = (i or 0) + 1 if i < 5 then return i end end, nil, nil, guard do
  if i == 3 then break end
  print(i)
end
