-- Integers and floats as constants: ends of the ranges, hex, exponents.
print(math.maxinteger, math.mininteger, 9223372036854775807, 9223372036854775808)
print(0x7fffffffffffffff, 0xffffffffffffffff, 0x10, 0xA.8p1, 0x.1p4, 1e308 * 10, -0.0)
print(3, 3.0, 65535, 65536, 131071, -65535, 1e5, 0.1, 123456789012, 5e-324, 2^53)
print(math.type(1), math.type(1.0), math.type("1"), 10 // 3, 10.0 // 3, "10" + 5, "0x10" * 2)
print(math.tointeger(3.0), math.tointeger(3.5), 7 // 0.0, -7 % math.huge, math.ult(1, -1))
local nan = 0 / 0
print(nan == nan, nan ~= nan, math.maxinteger + 1 == math.mininteger, 1 < 1.5)
