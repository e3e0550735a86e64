local f = io.open(arg[1], "ab")
for i = 1, 1000 do
  f:write("PUT " .. i .. " IN a\n")
  f:flush()
end
f:close()
