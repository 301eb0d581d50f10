-- A class, a class derived from it, and methods called with a colon.
local Instrument = {}
Instrument.__index = Instrument
function Instrument.new(name) return setmetatable({name = name, log = {}}, Instrument) end
function Instrument:write(text) self.log[#self.log + 1] = text return self end
function Instrument:describe() return self.name .. ": " .. table.concat(self.log, ", ") end
local Analyser = setmetatable({}, {__index = Instrument})
Analyser.__index = Analyser
function Analyser.new(name)
  local self = Instrument.new(name)
  self.points = 401
  return setmetatable(self, Analyser)
end
function Analyser:sweep(from, to) return self:write("SWEEP " .. from .. " " .. to):write("POINTS " .. self.points) end
print(Analyser.new("A1"):sweep(1, 9):write("OK"):describe())
print(Instrument.new("B2"):write("*IDN?"):describe(), ("text"):upper():rep(2, "-"))
