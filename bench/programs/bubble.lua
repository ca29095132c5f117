-- Bubble sort of numbers that look like chance.
local N <const>, TIMES <const> = 500, 20
local seed, a = 74755, {}

local function next_number()
    seed = (seed * 1309 + 13849) % 65536
    return seed
end

local function sort()
    for top = N - 1, 1, -1 do
        for i = 0, top - 1 do
            if a[i] > a[i + 1] then a[i], a[i + 1] = a[i + 1], a[i] end
        end
    end
end

local sum = 0
for _ = 1, TIMES do
    for i = 0, N - 1 do a[i] = next_number() end
    sort()
    for i = 1, N - 1 do assert(a[i - 1] <= a[i]) end
    sum = (sum + a[N // 2]) % 1000003
end
print(sum)
