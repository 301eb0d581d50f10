-- Loops over integers: up, down, none, at the ends of the range.
local n = 0
for i = 1, 10 do n = n + i end
for i = 10, 1, -3 do n = n * 2 + i end
for i = 1, 0 do n = -1 end
for i = math.maxinteger - 1, math.maxinteger do n = n + 1 end
for i = math.mininteger, math.mininteger + 2, 2 do n = n - 1 end
print(n)
for i = 3, 1 do print("never") end
for i = 1, 3 do
  local i = i * 10
  if i == 20 then break end
  print(i)
end
for i = 1, 2.9 do io.write(i, " ") end
print()
