print(band("low"))
print(pcall(band, "high"))
local function ask(name) return band(name) end
print(select(2, pcall(ask, "none")))
print(ask("higher"))
