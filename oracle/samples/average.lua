-- Averages traces point by point: mean, the largest, the smallest, and the last few.
local traces = {{-40, -42, -39, -60}, {-41, -40, -38, -61}, {-42, -41, -43, -59}, {-39, -44, -40, -62}}
local function fold(step, finish)
  local out = {}
  for p = 1, #traces[1] do
    local acc
    for n, trace in ipairs(traces) do acc = step(acc, trace[p], n) end
    out[p] = finish and finish(acc) or acc
  end
  return out
end
local function show(name, t) print(name, table.concat(t, " ")) end
show("mean", fold(function(acc, v) return (acc or 0) + v end, function(acc) return acc / #traces end))
show("max", fold(function(acc, v) return acc and acc > v and acc or v end))
show("min", fold(function(acc, v) return acc and acc < v and acc or v end))
show("last two", fold(function(acc, v, n) return n > #traces - 2 and (acc or 0) + v or acc end))
