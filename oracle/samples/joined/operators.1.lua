Volt = setmetatable({}, {
  __call = function(self, v) return setmetatable({ v = v }, self) end,
})
Volt.__add = function(a, b) return Volt(a.v + b.v) end
Volt.__tostring = function(a) return a.v .. " V" end
Volt.__index = function(_, key) error("a volt has no " .. key) end
