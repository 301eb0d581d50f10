-- To-be-closed variables: closed in reverse, on break, return and error.
local function open(name)
  return setmetatable({name = name}, {__close = function(self, err)
    print("close " .. self.name, err == nil and "no error" or "error")
  end})
end
do
  local instrument <close> = open("instrument")
  local display <close> = open("display")
  print("both open")
end
local function first()
  for i = 1, 3 do
    local trace <close> = open("trace " .. i)
    if i == 2 then return i end
  end
end
print(first())
print(pcall(function()
  local port <close> = open("port")
  error("lost", 0)
end))
local none <close> = nil
