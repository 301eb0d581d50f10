-- Constant locals: folded, and one that is not.
local start <const>, stop <const>, unit <const> = 10, 2.5e6, "Hz"
local list <const> = {1, 2}
local flag <const>, off <const>, nothing <const> = true, false, nil
local function span() return stop - start, unit, flag, off, nothing end
list[3] = start
print(span())
print(#list, start * 2, stop // start, -start, unit .. "!")
