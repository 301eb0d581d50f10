-- Readings through three coroutines: source, filter, sink.
local function source(list)
  return coroutine.wrap(function() for _, v in ipairs(list) do coroutine.yield(v) end end)
end
local function smooth(from)
  return coroutine.wrap(function()
    local last
    for v in from do
      last = last and (last + v) / 2 or v
      coroutine.yield(last)
    end
  end)
end
local function above(level, from)
  return coroutine.wrap(function()
    for v in from do if v >= level then coroutine.yield(v) end end
  end)
end
for v in above(3, smooth(source {1, 4, 9, 2, 8, 1})) do print(string.format("%.4f", v)) end
