print(field("TRAC:DATA 1.5 2.5", 2))
print(pcall(field, "one two", 3))
print(pcall(field, nil, 1))
print(field("", 1))
