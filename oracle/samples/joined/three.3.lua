print(second(math.max, 1, 7, 3))
print(pcall(second, function() local t; return t.x end))
print(debug.getinfo(first, "S").source, debug.getinfo(second, "S").source)
second(nil)
