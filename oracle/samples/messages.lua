-- Error messages that name a place, and what else only debug information has: sources, lines, names.
local function inner(v) return v.field.deeper end
local function outer(v)
    local held = v
    return (function() return inner(held) end)()
end
print(pcall(outer, {}))
print(pcall(function() error("at a place") end))
print(pcall(function() local unset; unset.x = 1 end))
print(select(2, xpcall(function() return inner + 1 end, debug.traceback)))
for _, f in ipairs {inner, outer, function() return outer, inner end} do
    local info = debug.getinfo(f, "SuL")
    local lines = {}
    for line in pairs(info.activelines or {}) do lines[#lines + 1] = line end
    table.sort(lines)
    print(info.source, info.short_src, info.linedefined, info.lastlinedefined, info.what, info.nups, info.nparams, info.isvararg, table.concat(lines, " "))
    print(debug.getlocal(f, 1), (debug.getupvalue(f, 1)))
end
error("the last line of a script")
