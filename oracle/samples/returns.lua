-- Main takes arguments and returns values.
local first, second = ...
print(first, second)
return 1, "two", nil, 4.0
