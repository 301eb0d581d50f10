-- Loops over floats, and one that mixes the two.
for x = 0.0, 1.0, 0.25 do io.write(x, " ") end
print()
for x = 1, 0, -0.5 do io.write(x, " ") end
print()
local sum = 0.0
for f = 1e6, 5e6, 1e6 do sum = sum + f end
print(sum, 1e300 * 1e10, -1e300 * 1e10, 0.1 + 0.2 == 0.3)
