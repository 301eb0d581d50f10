print(table.concat(attenuate_all({ 10, 20, 30 }, 3), " "))
print(pcall(attenuate, 1, -1))
print(select(2, pcall(attenuate_all, { 1 }, -1)))
attenuate(1, -2)
