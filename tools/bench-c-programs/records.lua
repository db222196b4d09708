local function make(v) return { a = { v = v }, b = { v = v + 1 } } end
local function take(p) return p.a.v + p.b.v end
local s = 0
for i = 1, 10000000 do s = s + take(make(i)) end
print(s)
