-- Quicksort of numbers that look like chance.
local N <const>, TIMES <const> = 5000, 20
local seed = 74755

local function next_number()
    seed = (seed * 1309 + 13849) % 65536
    return seed
end

local function sort(a, low, high)
    local i, j, pivot = low, high, a[(low + high) // 2]
    repeat
        while a[i] < pivot do i = i + 1 end
        while pivot < a[j] do j = j - 1 end
        if i <= j then
            a[i], a[j] = a[j], a[i]
            i, j = i + 1, j - 1
        end
    until i > j
    if low < j then sort(a, low, j) end
    if i < high then sort(a, i, high) end
end

local sum = 0
for _ = 1, TIMES do
    local a = {}
    for i = 0, N - 1 do a[i] = next_number() end
    sort(a, 0, N - 1)
    for i = 1, N - 1 do assert(a[i - 1] <= a[i]) end
    sum = (sum + a[N // 2]) % 1000003
end
print(sum)
