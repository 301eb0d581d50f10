function checked(value)
  if type(value) ~= "number" then error("a number is wanted", 2) end
  return value
end
