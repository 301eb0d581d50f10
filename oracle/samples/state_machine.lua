-- A trigger as a machine of states, with goto from one to the next.
local input = {0, 1, 5, 9, 4, 1, 0, 8, 2}
local i, fired = 0, 0
local level
::armed::
i = i + 1
level = input[i]
if not level then goto stop end
if level < 5 then goto armed end
fired = fired + 1
print("trigger", i, level)
::holding::
i = i + 1
level = input[i]
if not level then goto stop end
if level >= 2 then goto holding end
goto armed
::stop::
print("fired", fired)
