-- A sweep in steps as a coroutine, with an operator who stops it.
local function sweep(from, to, step)
  return coroutine.create(function()
    for f = from, to, step do
      local command = coroutine.yield(f, f * f % 17)
      if command == "stop" then return "stopped", f end
      if command == "back" then coroutine.yield(f - step, 0) end
    end
    return "complete"
  end)
end
for _, commands in ipairs {{}, {[3] = "stop"}, {[2] = "back"}} do
  local co, n, line = sweep(10, 14, 1), 0, {}
  local ok, a, b = coroutine.resume(co)
  while coroutine.status(co) ~= "dead" do
    n = n + 1
    line[n] = a .. "/" .. b
    ok, a, b = coroutine.resume(co, commands[n])
  end
  print(table.concat(line, " "), ok, a, b)
end
