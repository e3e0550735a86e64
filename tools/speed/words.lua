local text = ("the quick brown fox jumps over the lazy dog and the small cat sleeps near the old door "):rep(500)
local count, names = {}, {}
for word in text:gmatch("%S+") do
  if count[word] then
    count[word] = count[word] + 1
  else
    count[word] = 1
    names[#names + 1] = word
  end
end
table.sort(names)
for _, word in ipairs(names) do print(word .. " " .. count[word]) end
