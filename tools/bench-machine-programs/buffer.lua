local buffer, total = {}, 0
for i = 0, 999999 do table.insert(buffer, i) end
for i = 0, 999999 do total = total + buffer[i + 1] end
for i = 0, 999999 do table.remove(buffer) end
print(string.format("%d", total))
