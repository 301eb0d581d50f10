-- A variable of main, read and written from four functions within each other.
local depth, trail = 0, {}
local function a()
  depth = depth + 1
  local function b()
    depth = depth * 2
    local function c()
      trail[#trail + 1] = depth
      return function() depth = depth - 1 return depth, #trail end
    end
    return c()
  end
  return b()
end
for _ = 1, 3 do print(a()()) end
print(table.concat(trail, " "))
