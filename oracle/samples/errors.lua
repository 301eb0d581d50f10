-- Errors caught: objects, handlers, errors within handlers' functions.
print(pcall(error, "plain", 0))
print(select(2, pcall(error, setmetatable({}, {__tostring = function() return "object" end}))) ~= nil)
local function check(v) return v or error({reason = "no value"}) end
local ok, err = pcall(check, false)
print(ok, err.reason, pcall(check, 5))
print(xpcall(function() error("inner", 0) end, function(m) return "handled " .. m end))
print((pcall(function() return nil + 1 end)), (pcall(function() local t = nil; return t.x end)))
print(select("#", pcall(function() end)), pcall(assert, false, "asserted"))
