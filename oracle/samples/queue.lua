-- A queue and a stack, made of closures and of a linked list.
local function queue()
  local first, last = 1, 0
  local items = {}
  return {
    push = function(v) last = last + 1 items[last] = v end,
    pop = function()
      if first > last then return nil end
      local v = items[first]
      items[first], first = nil, first + 1
      return v
    end,
    size = function() return last - first + 1 end,
  }
end
local q = queue()
for _, v in ipairs {"open", "sweep", "close"} do q.push(v) end
print(q.pop(), q.size(), q.pop(), q.pop(), q.pop(), q.size())
local list
for i = 1, 5 do list = {value = i, next = list} end
while list do io.write(list.value, " ") list = list.next end
print()
