-- The run program in Lua, by the scope document's rules, for LuaJIT: numbers of 32 bits are doubles
-- from 0 to 4294967295.
local bit = require("bit")
local floor, min, max = math.floor, math.min, math.max
local band, bor, bnot, lshift = bit.band, bit.bor, bit.bnot, bit.lshift


local function product(x, y)
  local low = (x % 65536) * y
  local high = (floor(x / 65536) * y) % 65536
  return (low + high * 65536) % 4294967296
end

local function ones(x)
  local n = 0
  while x > 0 do
    n = n + x % 2
    x = floor(x / 2)
  end
  return n
end

local function leading(x)
  local n = 32
  while x > 0 do
    n = n - 1
    x = floor(x / 2)
  end
  return n
end

local function trailing(x)
  if x == 0 then return 32 end
  local n = 0
  while x % 2 == 0 do
    n = n + 1
    x = x / 2
  end
  return n
end

-- Whether an operation reads left and whether it reads right.
local function reads(edition, op)
  return op ~= 0, (op >= 2 and op <= 8) or (op == 11 and edition == 2)
end

-- Whether a comparison holds.
local function holds(comparison, x, y)
  if comparison == 0 then return x == y end
  if comparison == 1 then return x < y end
  return x <= y
end

-- Load's input checks; the chart, or a refusal's number and detail.
local function load_chart(file)
  local size = #file
  if size ~= 1024 and size ~= 1536 and size ~= 2048 and size ~= 2560 then return nil, 1, 0 end
  local edition, k, n, first = file:byte(5, 8)
  -- In edition 2 the check of block j adds 511 times j.
  local added = edition == 2 and 511 or 0
  for j = 0, size / 512 - 1 do
    local sum = added * j
    for i = 1, 510 do sum = sum + i * file:byte(512 * j + i) end
    if sum % 65536 ~= file:byte(512 * j + 511) + 256 * file:byte(512 * j + 512) then return nil, 2, j end
  end
  if file:sub(1, 4) ~= "FLOW" or (edition ~= 1 and edition ~= 2) then return nil, 3, 0 end
  if k > 16 or n < 1 or n > 204 or first >= n or file:sub(9, 510):find("[^%z]") then return nil, 4, 0 end
  if size ~= 512 * (1 + floor((n + 50) / 51)) then return nil, 5, 0 end
  local function readable(v) return v < k or (v >= 16 and v < 32) end
  local function operand(read, v) return (read and readable(v)) or (not read and v == 0) end
  local boxes = {}
  for p = 0, 51 * (size / 512 - 1) - 1 do
    local at = 512 * (1 + floor(p / 51)) + 10 * (p % 51)
    local b = { file:byte(at + 1, at + 10) }
    local zeros = function(from) for i = from, 10 do if b[i] ~= 0 then return false end end return true end
    local right
    if p >= n then
      right = zeros(1)
    elseif b[1] == 1 then
      local op = b[3]
      local reads_left, reads_right = reads(edition, op)
      right = b[2] >= 16 and b[2] < 32 and op <= 11 and operand(reads_left, b[4]) and operand(reads_right, b[5]) and b[6] < n and (op == 0 or zeros(7))
    elseif b[1] == 2 then
      right = b[2] == 0 and b[3] <= 2 and readable(b[4]) and readable(b[5]) and b[6] < n and b[7] < n and zeros(8)
    elseif b[1] == 4 and edition == 2 then
      right = b[2] >= 16 and b[2] < 32 and b[3] <= 2 and readable(b[4]) and readable(b[5]) and b[6] < n and readable(b[7]) and readable(b[8]) and zeros(9)
    else
      right = b[1] == 3 and zeros(2)
    end
    if not right then return nil, 6, p end
    boxes[p] = { b[1], b[2], b[3], b[4], b[5], b[6], b[7], b[8], b[7] + 256 * b[8] + 65536 * b[9] + 16777216 * b[10] }
  end
  return { edition = edition, k = k, n = n, first = first, boxes = boxes }
end

-- A mark is a set of withheld inputs: bit j is input j, 0 is no mark.
local vars, marks = {}, {}

-- The ending, the value or the set that a notice names, and the steps.
local function run(chart, mode, limit)
  local at, steps, counter = chart.first, 0, 0
  local boxes, edition = chart.boxes, chart.edition
  -- The inputs that an assignment keeps of its target's old set and takes of the sets read: bare
  -- keeps all and takes none.
  local keep, take = mode == 1 and 0 or 65535, mode == 0 and 0 or 65535
  while true do
    local b = boxes[at]
    local kind = b[1]
    steps = steps + 1
    if kind == 1 then
      local op, i, j, t = b[3], b[4], b[5], b[2]
      local x, y = vars[i], vars[j]
      local reads_left, reads_right = reads(edition, op)
      local read = 0
      if reads_right then read = bor(marks[i], marks[j]) elseif reads_left then read = marks[i] end
      local v
      if op == 0 then v = b[9]
      elseif op == 1 then v = x
      elseif op == 2 then v = edition == 2 and min(x + y, 4294967295) or (x + y) % 4294967296
      elseif op == 3 then v = edition == 2 and max(x - y, 0) or (x - y) % 4294967296
      elseif op == 4 then v = product(x, y)
      elseif op == 5 then v = y == 0 and 0 or floor(x / y)
      elseif op == 6 then v = y == 0 and x or x % y
      elseif op == 7 then v = min(x, y)
      elseif op == 8 then v = max(x, y)
      elseif op == 9 then v = ones(x)
      elseif op == 10 then v = leading(x)
      else v = edition == 2 and min(trailing(x), y) or trailing(x) end
      vars[t] = v
      marks[t] = bor(band(read, take), band(marks[t], keep))
      at = b[6]
    elseif kind == 2 then
      local read = bor(marks[b[4]], marks[b[5]])
      if mode == 1 and read ~= 0 then return "notice", read, steps end
      if mode == 2 then counter = bor(counter, read) end
      at = holds(b[3], vars[b[4]], vars[b[5]]) and b[6] or b[7]
    elseif kind == 4 then
      local i, j, yes, no, t = b[4], b[5], b[7], b[8], b[2]
      local read = bor(marks[i], marks[j], marks[yes], marks[no])
      vars[t] = holds(b[3], vars[i], vars[j]) and vars[yes] or vars[no]
      marks[t] = bor(band(read, take), band(marks[t], keep))
      at = b[6]
    else
      local output = marks[31]
      if mode == 1 and output ~= 0 then return "notice", output, steps end
      if mode == 2 and bor(output, counter) ~= 0 then return "notice", 0, steps end
      return "value", vars[31], steps
    end
    if steps >= limit then return "spent", 0, steps end
  end
end

-- An ending as it is told: in high-water mode a notice and a spent run end alike, as a notice of no
-- steps that names no inputs.
local function close(mode, kind, value, steps)
  if mode == 2 and kind ~= "value" then return "notice", 0, 0 end
  return kind, value, steps
end

-- The numbers of a line, or nothing where it is ill-formed.
local numbers = {}
local function parse(line)
  if #line > 255 or line:find("[^0-9 ]") then return nil end
  local count = 0
  for field in (line .. " "):gmatch("([^ ]*) ") do
    count = count + 1
    if count > 19 or field == "" or #field > 10 or (#field > 1 and field:byte(1) == 48) then return nil end
    local v = tonumber(field)
    if v > 4294967295 then return nil end
    numbers[count] = v
  end
  if count < 3 then return nil end
  return count
end

local function respond(chart, line, number)
  local count = parse(line)
  if not count then return "refused 11 detail " .. number .. "\n" end
  local mode, allowed, limit, k = numbers[1], numbers[2], numbers[3], chart.k
  if mode > 2 then return "refused 7 detail 0\n" end
  if count - 3 ~= k then return "refused 9 detail 0\n" end
  if allowed >= 2 ^ k then return "refused 8 detail 0\n" end
  if limit > 65535 then return "refused 10 detail 0\n" end
  for v = 0, 31 do
    vars[v] = 0
    marks[v] = 0
  end
  for j = 0, k - 1 do
    vars[j] = numbers[4 + j]
    marks[j] = band(bnot(allowed), lshift(1, j))
  end
  local kind, value, steps = close(mode, run(chart, mode, limit == 0 and 4096 or limit))
  if kind == "value" then return string.format("value %.0f steps %d\n", value, steps) end
  if kind == "notice" then return "notice steps " .. steps .. " inputs " .. value .. "\n" end
  return "spent steps " .. steps .. "\n"
end

local file = io.open("chart.bin", "rb")
local bytes = file and file:read(2561) or ""
local chart, number, detail = load_chart(bytes or "")
if not chart then
  io.write("refused ", number, " detail ", detail, "\n")
  return
end
io.stdout:setvbuf("full", 65536)
io.write("chart inputs ", chart.k, " boxes ", chart.n, "\n")
local line_number = 0
for line in io.lines() do
  line_number = line_number + 1
  io.write(respond(chart, line, line_number))
end
