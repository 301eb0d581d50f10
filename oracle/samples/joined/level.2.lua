local function twice(v)
  return 2 * checked(v)
end
print(twice(4))
print(pcall(twice, "x"))
print(twice({}))
