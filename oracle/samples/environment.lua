-- _ENV: globals, a table of one's own, a function's parameter.
shared = 1
local print, tostring = print, tostring
local function inside(_ENV) value = 5 other = value * 2 return value + (shared or 100) end
local box = {}
print(inside(box), box.value, box.other, value)
do
  local _ENV = {shared = "own"}
  local function peek() return shared end
  added = true
  print(peek(), tostring(added))
end
print(shared, added, _ENV == _G)
