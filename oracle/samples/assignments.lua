-- Several at once: swaps, too few, too many, calls at the end, the order of indices.
local a, b, c = 1, 2
a, b = b, a
print(a, b, c)
local function two() return "p", "q" end
local d, e, f = two()
local g, h, i = two(), 5
print(d, e, f, g, h, i)
local t, n = {}, 1
n, t[n] = n + 1, "at one"
t.x, t.y = two(), (two())
x, y = 10, 20, 30
print(n, t[1], t[2], t.x, t.y, x, y)
t[1], t[2], t[3] = t[3], t[1], two()
print(t[1], t[2], t[3])
