-- Events of metatables.
local V = {}
V.__index = V
local function vec(x, y) return setmetatable({x = x, y = y}, V) end
V.__add = function(a, b) return vec(a.x + b.x, a.y + b.y) end
V.__sub = function(a, b) return vec(a.x - b.x, a.y - b.y) end
V.__mul = function(a, k) return type(a) == "number" and vec(a * k.x, a * k.y) or vec(a.x * k, a.y * k) end
V.__unm = function(a) return vec(-a.x, -a.y) end
V.__eq = function(a, b) return a.x == b.x and a.y == b.y end
V.__lt = function(a, b) return a.x < b.x end
V.__le = function(a, b) return a.x <= b.x end
V.__len = function(a) return 2 end
V.__tostring = function(a) return "(" .. a.x .. "," .. a.y .. ")" end
V.__call = function(a, k) return a.x * k, a.y * k end
V.__idiv = function(a, k) return vec(a.x // k, a.y // k) end
V.__band = function() return "and" end
V.__shl = function() return "left" end
V.__bnot = function() return "not" end
local a, b = vec(1, 2), vec(3, 4)
print(tostring(a + b), tostring(b - a), tostring(2 * a), tostring(a * 2), tostring(-a))
print(a == b, a == vec(1, 2), a < b, a <= b, a > b, #a, a(10))
print(tostring(b // 2), a & 1, a << 1, ~a)
