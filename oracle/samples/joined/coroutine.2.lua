local p = producer(2)
for _ = 1, 4 do print(coroutine.resume(p)) end
print(debug.traceback(p))
coroutine.wrap(function() error("outside") end)()
