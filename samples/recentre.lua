-- Re-centres the marker of a spectrum analyser on every peak of a trace.
-- Without an instrument the trace is made here: three carriers over a flat floor.

local start, step, points = 100.0, 0.5, 401     -- MHz, MHz, number of points
local threshold, excursion = -60.0, 6.0         -- dBm, dB

local carriers = {
  { freq = 131.2, level = -20.0, width = 1.5 },
  { freq = 180.0, level = -41.5, width = 0.9 },
  { freq = 262.9, level = -33.0, width = 2.2 },
}

local function level_at(freq)
  local power = 10 ^ (-90 / 10)
  for _, c in ipairs(carriers) do
    local x = (freq - c.freq) / c.width
    power = power + 10 ^ (c.level / 10) / (1 + x * x) ^ 2
  end
  return 10 * math.log(power, 10)
end

local function read_trace()
  local trace = {}
  for i = 1, points do
    trace[i] = level_at(start + (i - 1) * step)
  end
  return trace
end

-- A point that both neighbours are below, and the trace falls by the excursion on both sides.
local function is_peak(trace, i)
  local top = trace[i]
  if top < threshold or top <= trace[i - 1] or top < trace[i + 1] then
    return false
  end
  local function falls(from, to, by)
    for j = from, to, by do
      if trace[j] > top then return false end
      if trace[j] <= top - excursion then return true end
    end
    return false
  end
  return falls(i - 1, 1, -1) and falls(i + 1, #trace, 1)
end

-- The marker between the points, at the top of the parabola through three of them.
local function centre(trace, i)
  local a, b, c = trace[i - 1], trace[i], trace[i + 1]
  local shift = 0.5 * (a - c) / (a - 2 * b + c)
  return start + (i - 1 + shift) * step, b - 0.25 * (a - c) * shift
end

local marker = { freq = start, level = threshold, moves = 0 }

function marker:recentre(freq, level)
  local moved = freq - self.freq
  self.freq, self.level, self.moves = freq, level, self.moves + 1
  return moved
end

local trace = read_trace()
print("peak      MHz       dBm    moved")
for i = 2, #trace - 1 do
  if is_peak(trace, i) then
    local moved = marker:recentre(centre(trace, i))
    print(string.format("%4d %8.3f %9.2f %8.3f", marker.moves, marker.freq, marker.level, moved))
  end
end
assert(marker.moves == #carriers, "a peak was missed")
