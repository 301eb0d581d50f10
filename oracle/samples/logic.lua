-- and, or, not: values and conditions.
local function show(...) print(...) return ... end
local t, f, n = true, false, nil
print(t and 1, f and 1, n and 1, t or 2, f or 2, n or 2, not t, not n)
print(t and f or "third", n or f or "last", (t and n) == nil, not not 0)
if (t or show("not asked")) and not f then print("both") end
local v = f or n or show("asked")
v = v and #v or 0
print(v)
local flag = (v > 3) == t
print(flag, v > 3 and v < 5)
