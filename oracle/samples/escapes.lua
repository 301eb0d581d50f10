-- Every escape in a string.
local s = "\a\b\f\n\r\t\v\\\"\'\0\1\x7f\xFF\65\065\u{7A}\u{20AC}\u{10FFFF}\z
           joined\
next"
print(#s)
for i = 1, #s do io.write(s:byte(i), " ") end
print()
print('single "quotes"', "double 'quotes'", '\x41\u{42}\067')
