Meter = {}
Meter.__index = Meter
function Meter.new(range) return setmetatable({ range = range, sum = 0, count = 0 }, Meter) end
function Meter:take(v)
  assert(v <= self.range, "out of range")
  self.sum, self.count = self.sum + v, self.count + 1
  return self
end
function Meter:mean() return self.sum // self.count end
