function retry(times, task)
  local last
  for i = 1, times do
    local ok, what = xpcall(task, debug.traceback, i)
    if ok then return what end
    last = what
  end
  error(last, 0)
end
