print(Volt(1) + Volt(2))
print(pcall(function() return Volt(1).ampere end))
print(pcall(function() return Volt(1) + 1 end))
return Volt(1) + {}
