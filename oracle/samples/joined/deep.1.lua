function outer(x)
  return function(y)
    return function(z)
      local here = debug.getinfo(1, "S")
      return x + y + z, here.short_src, here.linedefined
    end
  end
end
