local function gcd(a, b)
  while b ~= 0 do a, b = b, a % b end
  return a
end
local p, q
for k = 1, 1000 do
  p, q = 0, 1
  for i = 1, 40 do
    local g = gcd(q, i)
    p, q = p * (i // g) + q // g, q // g * i
    g = gcd(p, q)
    p, q = p // g, q // g
  end
end
print(p .. "/" .. q)
