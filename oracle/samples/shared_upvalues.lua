-- Two closures over one variable, one closure in a loop for each turn.
local get, set
do
  local level = 0
  function get() return level end
  function set(v) level = v end
end
set(7)
print(get())
local list = {}
for i = 1, 4 do
  local square = i * i
  list[i] = function(add) square = square + (add or 0) return i, square end
end
list[2](100)
for i = 1, 4 do print(list[i]()) end
