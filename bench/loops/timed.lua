-- timed.lua LOOP CALLS ARGUMENTS: the loop's result and the median of its calls' processor times, in seconds.
local loop = dofile(arg[1])
local numbers, times, result = {}, {}, nil
for i = 3, #arg do numbers[i - 2] = tonumber(arg[i]) end
local unpack = table.unpack or unpack -- a global in LuaJIT
for i = 1, tonumber(arg[2]) do
  local start = os.clock()
  result = loop(unpack(numbers))
  times[i] = os.clock() - start
end
table.sort(times)
print(result, times[math.floor(#times / 2) + 1])
