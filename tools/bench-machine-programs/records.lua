local function raised(counted)
  local point, count = counted.point, counted.count
  return { point = point, count = count + 1 }
end
local total = 0
for i = 1, 1000000 do
  local counted = raised({ point = { x = i, y = i }, count = 0 })
  total = total + counted.point.x + counted.count
end
print(string.format("%d", total))
