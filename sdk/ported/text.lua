-- Text, tables, closures, coroutines, errors, files and the words of the command line.
print(arg[1], arg[2], #arg)
print(("hello world"):gsub("o", "0"), ("key = value"):match("(%w+)%s*=%s*(%w+)"), ("abc"):rep(3, "-"), ("x"):byte(), #"größe", utf8.len("größe"))

local words, count = {}, {}
for line in io.lines("words") do
  for word in line:gmatch("%a+") do
    word = word:lower()
    if not count[word] then words[#words + 1] = word end
    count[word] = (count[word] or 0) + 1
  end
end
table.sort(words, function(a, b) return count[a] > count[b] or count[a] == count[b] and a < b end)
for i = 1, 8 do print(words[i], count[words[i]]) end

local file = assert(io.open("out.txt", "w"))
for i = 1, 3000 do file:write(i, ": ", words[i % #words + 1], "\n") end
file:close()
file = assert(io.open("out.txt", "r+"))
file:seek("set", 5)
file:write("!!")
print(file:seek("end"), file:seek("cur", -10), file:read("l"))
file:close()
assert(os.rename("out.txt", "renamed.txt"))
print(io.open("out.txt"), os.remove("nothing"))
file = io.open("log", "a")
file:write("added\n")
file:close()

local function numbers(n)
  return coroutine.wrap(function() for i = 1, n do coroutine.yield(i * i) end end)
end
local squares = {}
for n in numbers(10) do squares[#squares + 1] = n end
print(table.concat(squares, ","), select("#", table.unpack(squares)))

print(pcall(error, { code = 7 }) == false, select(2, pcall(function() local x = nil; return x.y end)))
print(select(2, pcall(string.rep, "x", -1)), load("return 1 +")) 
local object = setmetatable({}, { __index = function(_, k) return k .. "?" end, __call = function(_, a, b) return a + b end, __tostring = function() return "an object" end })
print(object.name, object(3, 4), tostring(object))
print(io.read("l"), io.read("n"), io.read("l"), io.read("a") == "")
local tree = {}
local function insert(node, key)
  if not node then return { key = key } end
  if key < node.key then node.left = insert(node.left, key) else node.right = insert(node.right, key) end
  return node
end
local root
for i = 1, 500 do root = insert(root, i * 7919 % 1009) end
local function walk(node, sum, depth)
  if not node then return sum, depth end
  local a, b = walk(node.left, sum, depth + 1)
  return walk(node.right, a * 31 % 65521 + node.key, b)
end
print(walk(root, 0, 0))
os.exit(7)
