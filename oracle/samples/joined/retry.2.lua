print(retry(3, function(i) if i < 3 then error("not yet") end return "at " .. i end))
print(retry(2, function(i) return i + nil end))
