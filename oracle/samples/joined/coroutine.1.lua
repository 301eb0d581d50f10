function producer(n)
  return coroutine.create(function()
    for i = 1, n do coroutine.yield(i * i) end
    error("no more than " .. n)
  end)
end
