-- Long brackets, and constants of 40 and of 41 bytes.
local a = [[
first line
second line]]
local b = [==[brackets ]] and ]=] within]==]
print(a, b, #a, #b)
print("0123456789012345678901234567890123456789")
print("01234567890123456789012345678901234567890")
local note = "a constant that is longer than forty bytes is kept as a long string"
local same = "a constant that is longer than forty bytes is kept as a long string"
print(note == same, #note)
--[==[ a comment
of two lines ]==] print("after the comment")
