-- Blocks are packed into a box, by search.
local LAST <const>, D <const>, KINDS <const>, TIMES <const> = 511, 8, 13, 10
local full, piece, class, last, left, tries = {}, {}, {}, {}, {}, 0

local function fits(i, at)
    local cells = piece[i]
    for k = 0, last[i] do
        if cells[k] and full[at + k] then return false end
    end
    return true
end

local function place(i, at)
    local cells = piece[i]
    for k = 0, last[i] do
        if cells[k] then full[at + k] = true end
    end
    left[class[i]] = left[class[i]] - 1
    for k = at, LAST do
        if not full[k] then return k end
    end
    return 0
end

local function remove(i, at)
    local cells = piece[i]
    for k = 0, last[i] do
        if cells[k] then full[at + k] = false end
    end
    left[class[i]] = left[class[i]] + 1
end

local function try(at)
    tries = tries + 1
    for i = 0, KINDS - 1 do
        if left[class[i]] ~= 0 and fits(i, at) then
            local next_at = place(i, at)
            if next_at == 0 or try(next_at) then return true end
            remove(i, at)
        end
    end
    return false
end

local function define(i, a, b, c, kind)
    piece[i] = {}
    for k = 0, LAST do piece[i][k] = false end
    for x = 0, a do
        for y = 0, b do
            for z = 0, c do piece[i][x + D * (y + D * z)] = true end
        end
    end
    class[i], last[i] = kind, a + D * (b + D * c)
end

local function solve()
    for i = 0, LAST do full[i] = true end
    for x = 1, 5 do
        for y = 1, 5 do
            for z = 1, 5 do full[x + D * (y + D * z)] = false end
        end
    end
    left[0], left[1], left[2], left[3] = 13, 3, 1, 1
    local at = 1 + D * (1 + D)
    assert(fits(0, at))
    assert(try(place(0, at)))
end

define(0, 3, 1, 0, 0) define(1, 1, 0, 3, 0) define(2, 0, 3, 1, 0)
define(3, 1, 3, 0, 0) define(4, 3, 0, 1, 0) define(5, 0, 1, 3, 0)
define(6, 2, 0, 0, 1) define(7, 0, 2, 0, 1) define(8, 0, 0, 2, 1)
define(9, 1, 1, 0, 2) define(10, 1, 0, 1, 2) define(11, 0, 1, 1, 2)
define(12, 1, 1, 1, 3)
for _ = 1, TIMES do solve() end
print(tries)
