-- goto: the next turn, out of two loops, backwards.
for i = 1, 3 do
  for j = 1, 3 do
    if j == 2 then goto continue end
    if i == 3 then goto done end
    print(i, j)
    ::continue::
  end
end
::done::
local n = 0
::again::
n = n + 1
if n < 3 then goto again end
do
  local get
  ::top::
  local kept = n
  get = function() return kept end
  n = n + 10
  if n < 30 then goto top end
  print(n, get())
end
