-- Coroutines: values in and out, wrap, a status, an error.
local co = coroutine.create(function(a, b)
  local c = coroutine.yield(a + b)
  local d, e = coroutine.yield(c * 2)
  return d + e, "done"
end)
print(coroutine.resume(co, 1, 2))
print(coroutine.resume(co, 10))
print(coroutine.resume(co, 3, 4))
print(coroutine.status(co), coroutine.resume(co))
local function steps(from, to, by)
  return coroutine.wrap(function()
    for x = from, to, by do coroutine.yield(x) end
  end)
end
for x in steps(0, 1, 0.25) do io.write(x, " ") end
print()
local bad = coroutine.create(function() error({code = 7}) end)
local ok, err = coroutine.resume(bad)
print(ok, err.code, coroutine.isyieldable())
