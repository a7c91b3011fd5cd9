-- Two loads of the bench as a user would write them without the box: coroutines over plain tables, one resume a turn.
-- A turn performs one step, as a turn of the box performs one line: a yield ends each. Prints a load's name, its ns a step, and what the
-- last step left, which is what the box leaves after as many turns. Most of the time goes to the switch at every step, which a list of turns
-- asks for: the calls and swaps of one thread that never yields took about a third of it.

local TURNS, RUNS, CALLS = 32768, 41, 13
local yield = coroutine.yield

-- A channel holds one message; the sender goes on once its message is gone.
local function send(channel, value)
  while channel.message do yield() end
  local number = channel.number + 1
  channel.message, channel.number = value, number
  yield()
  while channel.message and channel.number == number do yield() end
  yield()
end

local function recv(channel)
  while not channel.message do yield() end
  local value = channel.message
  channel.message = nil
  yield()
  return value
end

local function swap(object, field, value)
  local old = object[field]
  object[field] = value
  yield()
  return old
end

local function field(object, name)
  local value = object[name]
  yield()
  return value
end

local function give(value)
  yield()
  return value
end

-- Three more methods, each of which calls the one before it thirteen times, so that the last keeps a thread busy.
local function tower(kind, chained)
  kind.__index = kind
  for level = 1, 3 do
    local below = kind[level]
    kind[level + 1] = function(self, argument)
      local value = argument
      for _ = 1, CALLS do
        yield()
        local result = below(self, value)
        if chained then value = result end
      end
      return give(value)
    end
  end
  return kind
end

-- Two threads hand one record to and fro over one channel.
local Player = tower({
  function(self, channel)
    for _ = 1, 6 do send(channel, recv(channel)) end
    return give(channel)
  end,
}, false)

local function ping_pong()
  local channel = {number = 0}
  local function play()
    local player = setmetatable({}, Player)
    yield()
    yield()
    return player[4](player, channel)
  end
  local function first()
    yield()
    local record = {}
    yield()
    send(channel, record)
    return play()
  end
  return {first, play}, function() return channel.number .. " messages" end
end

-- One thread calls methods that swap and read the fields of self.
local Pair = tower({
  function(self, value)
    value = swap(self, "right", value)
    value = swap(self, "left", value)
    value = swap(self, "right", value)
    value = field(self, "right")
    value = swap(self, "right", value)
    value = swap(self, "left", value)
    value = swap(self, "right", value)
    value = field(self, "left")
    value = swap(self, "right", value)
    value = swap(self, "left", value)
    value = swap(self, "right", value)
    value = field(self, "right")
    return give(value)
  end,
}, true)

local function calls_and_swaps()
  local one, two, three = {name = "0"}, {name = "1"}, {name = "2"}
  local pair = setmetatable({left = one, right = two}, Pair)
  local function first()
    for _ = 1, 4 do yield() end
    local value = three
    for _ = 1, 2 do
      yield()
      value = pair[4](pair, value)
    end
    return give(value)
  end
  return {first}, function() return "left " .. pair.left.name .. ", right " .. pair.right.name end
end

-- The seconds that the turns take, in rotation, and what they left.
local function run(load)
  local threads, left = load()
  local turns, started = {}, {}
  for n = 1, TURNS do turns[n] = (n - 1) % #threads + 1 end
  for n, thread in ipairs(threads) do started[n] = coroutine.create(thread) end
  local resume = coroutine.resume
  local began = os.clock()
  for n = 1, TURNS do
    local going, fault = resume(started[turns[n]])
    if not going then error(fault) end
  end
  return os.clock() - began, left()
end

local function measured(name, load)
  local times, left = {}, nil
  for n = 1, RUNS do times[n], left = run(load) end
  table.sort(times)
  print(string.format("%s\t%.1f\t%s", name, times[RUNS // 2 + 1] / TURNS * 1e9, left))
end

measured("iso ping-pong", ping_pong)
measured("calls and swaps", calls_and_swaps)
