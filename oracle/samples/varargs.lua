-- Any number of arguments, some of them nil.
local function count(...) return select("#", ...) end
local function tail(_, ...) return ... end
local function sum(...)
  local s = 0
  for i = 1, select("#", ...) do s = s + (select(i, ...) or 0) end
  return s
end
print(count(), count(nil), count(1, nil, nil), sum(1, 2, nil, 4))
print(tail(1, 2, 3), (tail(1, 2, 3)))
local packed = table.pack(tail(0, nil, "x", nil))
print(packed.n, packed[1], packed[2], table.unpack({1, 2, 3}, 2))
local a, b, c = ...
print(a, b, c, #{tail(9, 8, 7)}, #{0, (tail(9, 8, 7))})
