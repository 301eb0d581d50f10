-- Tables within tables: records, lists, keys of every kind, a trailing call.
local function three() return "x", "y", "z" end
local t = {
  name = "trace", [1] = "over", "one", "two",
  limits = {low = -90.5, high = 10, [true] = "yes", [2.5] = "half"},
  points = {{f = 1e6, a = -3}, {f = 2e6, a = -7; }, },
  ["two words"] = 2,
  three(), three(),
}
print(t.name, t[1], #t, t[3], t[4], t[6], t["two words"])
print(t.limits.low, t.limits[true], t.limits[2.5], t.points[2].f, t.points[1].a)
t.points[#t.points + 1] = {f = 3e6, a = t.points[2].a - 1}
print(#t.points, t.points[3].a, #{three()}, #{(three())}, #{three(), nil})
