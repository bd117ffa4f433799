-- What a Lua program does: tables, strings, closures, coroutines, errors, integers and floats, files.
local rounds = tonumber(arg[1])
local function fib(n) if n < 2 then return n end return fib(n - 1) + fib(n - 2) end
local function queens(n)
  local count, columns, up, down = 0, {}, {}, {}
  local function place(row)
    if row > n then count = count + 1 return end
    for column = 1, n do
      if not (columns[column] or up[row + column] or down[row - column]) then
        columns[column], up[row + column], down[row - column] = true, true, true
        place(row + 1)
        columns[column], up[row + column], down[row - column] = nil, nil, nil
      end
    end
  end
  place(1)
  return count
end
local function primes(n)
  local sieve, found = {}, {}
  for i = 2, n do
    if not sieve[i] then
      found[#found + 1] = i
      for j = i * i, n, i do sieve[j] = true end
    end
  end
  return found
end

for round = 1, rounds do
  print("round", round, "fib", fib(14 + round % 4), "queens", queens(5 + round % 2))
  local list = primes(300 * (1 + round % 3))
  table.sort(list, function(a, b) return a % 10 < b % 10 or a % 10 == b % 10 and a > b end)
  print(#list, table.concat(list, " ", 1, 12))
  local words = {}
  for word in ("the quick brown fox jumps over the lazy dog"):gmatch("%a+") do
    words[word] = (words[word] or 0) + #word
  end
  local keys = {}
  for key in pairs(words) do keys[#keys + 1] = key end
  table.sort(keys)
  for _, key in ipairs(keys) do io.write(key:upper(), "=", words[key], " ") end
  print(("%5.2f|%-6d|%x|%q"):format(math.pi * round, round, 255 * round, "a\nb"))
  local squares = coroutine.wrap(function() for i = 1, 5 do coroutine.yield(i * i) end return "end" end)
  print(squares(), squares(), squares(), squares(), squares(), squares())
  print(pcall(function() return nil + round end))
  print(7 // 2, 7.0 // 2, 7 % -3, 1 << 40, 2 ^ 0.5, 10 / 3, math.maxinteger + round, string.rep("ab", 3, "-"))
  local answers = { __index = function(_, key) return key .. "!" end, __len = function() return 42 end }
  local object = setmetatable({}, answers)
  print(object.missing, #object, select("#", table.unpack({ 1, nil, 3 }, 1, 3)))
  local file = assert(io.open("made.txt", "w"))
  for i = 1, 20 do file:write(i, "\t", i * i, "\n") end
  file:close()
  local sum = 0
  for line in io.lines("made.txt") do sum = sum + tonumber(line:match("\t(%d+)")) end
  print(sum, os.remove("made.txt"), collectgarbage("count") > 0)
end
