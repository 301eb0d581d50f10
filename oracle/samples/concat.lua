-- Concatenation and length, of few and of many.
local unit, n = "dB", 3
print("level " .. -n .. " " .. unit .. "m", 1 .. "", 1.5 .. "|" .. 2)
local s = ""
for i = 1, 5 do s = s .. i .. "," end
print(s, #s, #{1, 2, 3, n = 4}, #"")
local t = setmetatable({}, {__concat = function(a, b) return "joined" end, __len = function() return 42 end})
print(t .. "x", "x" .. t, 1 .. t, #t)
