-- A library of two functions, one of which fails on a wrong argument.
function attenuate(level, by)
  if by < 0 then error("negative attenuation") end
  return level - by
end
function attenuate_all(levels, by)
  local out = {}
  for i, level in ipairs(levels) do out[i] = attenuate(level, by) end
  return out
end
