local function make(n)
  if n == 0 then return false end
  return { v = n, next = make(n - 1) }
end
local function total(l) return l and l.v + total(l.next) or 0 end
local function bump(l)
  if l then
    l.v = l.v + 1
    return bump(l.next)
  end
end
local eat = total
local s = 0
for i = 1, 5000 do
  local l = make(1000)
  s = s + total(l)
  s = s + total(l)
  bump(l)
  s = s + eat(l)
end
print(s)
