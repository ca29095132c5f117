-- Products of two matrices of integers.
local N <const>, TIMES <const> = 40, 100
local seed = 74755

local function next_number()
    seed = (seed * 1309 + 13849) % 65536
    return seed
end

local function filled()
    local m = {}
    for i = 1, N do
        m[i] = {}
        for j = 1, N do m[i][j] = next_number() % 120 - 60 end
    end
    return m
end

local function multiply(x, y, to)
    for i = 1, N do
        local row, out = x[i], to[i]
        for j = 1, N do
            local sum = 0
            for k = 1, N do sum = sum + row[k] * y[k][j] end
            out[j] = sum
        end
    end
end

local a, b, c = filled(), filled(), {}
for i = 1, N do c[i] = {} end
for _ = 1, TIMES do multiply(a, b, c) end
local total = 0
for i = 1, N do total = total + c[i][i] end
print(total)
