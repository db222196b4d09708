local s = 0
for i = 1, 100000000 do s = s + i end
print(s)
local i = 0
while i < 100000000 do
  s = s + i // 3
  i = i + 1
end
print(s)
