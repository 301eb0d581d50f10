-- Polls a status register until the sweep is done, with a limit on the tries.
local replies = {0x00, 0x10, 0x10, 0x50, 0x51, 0x41}
local reads = 0
local function status()
  reads = reads + 1
  return replies[reads] or 0xFF
end
local DONE <const>, BUSY <const>, FAULT <const> = 0x01, 0x10, 0x80
local tries, s = 0
repeat
  s = status()
  tries = tries + 1
  local busy = s & BUSY ~= 0
  print(string.format("0x%02X %s", s, busy and "busy" or "idle"))
  if s & FAULT ~= 0 then print("fault") break end
until s & DONE ~= 0 and not busy or tries >= 10
print(tries, s >> 6)
