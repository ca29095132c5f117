-- The programs that bench/machine times, in Lua: NAME SIZE, with the names and the sizes of crates/bench_parts.

local function count(size)
    local i = 0
    while i < size do i = i + 1 end
    return i
end

local function calls(n)
    if n < 2 then return n end
    return calls(n - 1) + calls(n - 2)
end

local function sieve(size)
    local mark, n = {}, 0
    local k = 0
    while k < 10 do
        n = 0
        local i = 0
        while i < size do mark[i] = 0; i = i + 1 end
        i = 2
        while i < size do
            if mark[i] < 1 then
                n = n + 1
                local j = i + i
                while j < size do mark[j] = 1; j = j + i end
            end
            i = i + 1
        end
        k = k + 1
    end
    return n
end

local function list(size)
    local head = nil
    local i = 0
    while i < size do head = { value = i, next = head }; i = i + 1 end
    local sum = 0
    while head do sum = (sum + head.value) % 1000003; head = head.next end
    return sum
end

local Counter = {}
Counter.__index = Counter
function Counter:step() self.value = self.value + 1 end

local function bound(size)
    local counter = setmetatable({ value = 0 }, Counter)
    local i = 0
    while i < size do counter:step(); i = i + 1 end
    return counter.value
end

local programs = { count = count, calls = calls, sieve = sieve, list = list, bound = bound }
print(programs[arg[1]](math.tointeger(arg[2])))
