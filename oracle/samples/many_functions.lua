-- Thirty functions side by side, most of them small.
local f = {
  function() return 1 end, function(x) return x end, function(x, y) return x + y end, function(...) return ... end,
  function() return "a" end, function(x) return -x end, function(x) return not x end, function(x) return #x end,
  function() return {} end, function(x) return x[1] end, function(x) return x.y end, function(x, y) x[1] = y end,
  function() return nil end, function() return true end, function() return false end, function() end,
  function(x) return x & 1 end, function(x) return x << 1 end, function(x) return x >> 1 end, function(x) return ~x end,
  function(x) return x == 1 end, function(x) return x < 1 end, function(x) return x .. "!" end, function(x) return x // 2 end,
  function(x) return x ^ 2 end, function(x) return x % 3 end, function(x) return x / 4 end, function(x) return x * 5 end,
  function(x) return 1 - x end, function(f, ...) return f(...) end,
}
print(#f, f[1](), f[3](2, 3), select("#", f[4](1, nil)), f[8]("abc"), f[20](0), f[23]("x"), f[25](3), f[30](f[29], 7))
