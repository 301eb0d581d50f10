-- The string library: patterns, formats, bytes.
local reply = "  FREQ:CENT 1.5E9; SPAN 2E6;POW -30.25 dBm "
for key, value in reply:gmatch("([%a:]+)%s+(%-?[%d.E]+)") do print(key, tonumber(value)) end
print((reply:gsub("%s+", " ")), reply:find("SPAN", 1, true))
print(("%5.2f|%-6s|%03d|%x|%q"):format(3.14159, "ab", 7, 255, 'a "q"'))
print(("abc"):byte(1, -1), string.char(72, 105), ("x"):rep(3, ","), #("\0"):rep(5))
print(("stop"):reverse(), ("MiXed"):lower(), ("abcdef"):sub(-3, -2), tostring(nil) .. tostring(1e100))
