-- Numbers that look like chance go into a binary tree, which is then walked.
local N <const> = 100000
local seed, last, sum = 74755, -1, 0

local function next_number()
    seed = (seed * 8121 + 28411) % 134456
    return seed
end

local function inserted(t, key)
    if not t then return { key = key, times = 1 } end
    if key < t.key then
        t.left = inserted(t.left, key)
    elseif key > t.key then
        t.right = inserted(t.right, key)
    else
        t.times = t.times + 1
    end
    return t
end

local function walk(t)
    if t then
        walk(t.left)
        assert(last < t.key)
        last = t.key
        sum = (sum + t.key * t.times) % 1000003
        walk(t.right)
    end
end

local root
for _ = 1, N do root = inserted(root, next_number()) end
walk(root)
print(sum)
