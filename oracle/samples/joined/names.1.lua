function whose(level)
  local info = debug.getinfo(level, "Sl")
  return info.source, info.short_src, info.currentline
end
function theirs() return whose(2) end
