local bands = { low = { 0, 10 }, mid = { 10, 100 } }
function band(name)
  local found = bands[name]
  return found[1], found[2]
end
