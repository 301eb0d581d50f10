-- __index and __newindex, as tables and as functions, and rawget behind them.
local defaults = {span = 100, centre = 50}
local log = {}
local settings = setmetatable({}, {
  __index = function(_, key) log[#log + 1] = "get " .. key return defaults[key] end,
  __newindex = function(t, key, value) log[#log + 1] = "set " .. key rawset(t, key, value) end,
})
settings.span = settings.span * 2
settings.span = settings.span + 1
settings[1], settings["k"] = settings.centre, settings[2]
print(settings.span, rawget(settings, "centre"), settings[1])
print(table.concat(log, "; "))
local child = setmetatable({}, {__index = settings})
print(child.span, child.none)
