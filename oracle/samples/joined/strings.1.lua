function field(line, n)
  local at = 0
  for word in line:gmatch("%S+") do
    at = at + 1
    if at == n then return word end
  end
  error(("no field %d in %q"):format(n, line))
end
