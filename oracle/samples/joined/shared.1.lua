-- A counter that both parts of the joined script share by an upvalue of the library.
local count = 0
function step(by)
  count = count + by
  if count > 5 then error({ code = count }) end
  return count
end
