local t, size = {}, 0
for i = 1, 100000 do
  local k = i * 7919 % 100003
  if t[k] == nil then size = size + 1 end
  t[k] = i
end
local n = 0
for i = 1, 100000 do n = n + t[i * 7919 % 100003] end
print(n .. " " .. size)
