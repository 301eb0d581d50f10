-- Sorting with and without an order of one's own, and a sort by hand.
local names = {"delta", "alpha", "echo", "bravo", "charlie"}
table.sort(names)
print(table.concat(names, " "))
table.sort(names, function(a, b) return #a < #b or #a == #b and a > b end)
print(table.concat(names, " "))
local function insertion(t, less)
  for i = 2, #t do
    local v, j = t[i], i - 1
    while j >= 1 and less(v, t[j]) do t[j + 1], j = t[j], j - 1 end
    t[j + 1] = v
  end
  return t
end
print(table.concat(insertion({5, 2, 8, 1, 9, 2}, function(a, b) return a > b end), ","))
