print(Meter.new(10):take(4):take(8):mean())
print(pcall(Meter.take, Meter.new(1), 2))
print(pcall(Meter.mean, Meter.new(1)))
Meter.mean({ sum = 1, count = "none" })
