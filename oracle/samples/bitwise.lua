-- Bitwise operators: registers, constants, immediate shifts.
local status, mask = 0x5A5A, 0x0FF0
print(status & mask, status | mask, status ~ mask, ~status)
print(status & 0xFF, status | 0x10000, status ~ 0xFFFF)
print(status << 4, status >> 4, 1 << status % 8, 256 >> 3, status << -2)
print(status << mask % 5, status >> mask % 3)
print(~0, ~0 >> 60, 1 << 63, 1 << 64, 3.0 & 1)
local bits = 0
for place = 0, 15 do bits = bits | (status >> place & 1) << (15 - place) end
print(string.format("%04X", bits))
