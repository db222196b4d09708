local b, s = {}, 0
for i = 1, 1000000 do b[#b + 1] = i end
for o = 1, 20 do
  for i = 1, 1000000 do s = s + b[i] end
end
print(s)
while #b > 0 do b[#b] = nil end
