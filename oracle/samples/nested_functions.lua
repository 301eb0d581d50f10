-- Functions within functions, eight deep, each with its own line and variable.
local function one(a)
  return function(b)
    return function(c)
      return function(d)
        return function(e)
          return function(f)
            return function(g)
              return a + b * 2 + c * 3 + d * 4 + e * 5 + f * 6 + g * 7
            end
          end
        end
      end
    end
  end
end
print(one(1)(2)(3)(4)(5)(6)(7))
local compose = function(f, g) return function(...) return f(g(...)) end end
print(compose(function(x) return x + 1 end, function(x, y) return x * y end)(3, 4))
