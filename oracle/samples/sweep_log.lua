-- Logs a sweep, a line an entry, each with the line of the script that wrote it.
local log = {}
local function note(text, ...)
  local line = debug.getinfo(2, "l").currentline
  log[#log + 1] = ("%4d %s"):format(line, text:format(...))
end
note("start")
for f = 1, 3 do
  note("%d MHz", f)
  if f == 2 then
    note("overload at %d", f)
    note("attenuator %s",
      "10 dB")
  end
end

note("stop")
for _, entry in ipairs(log) do print(entry) end
