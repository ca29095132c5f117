-- The towers of Hanoi, on linked cells.
local pegs, moves = {}, 0

local function push(d, peg)
    if pegs[peg] then assert(d.size < pegs[peg].size) end
    d.below = pegs[peg]
    pegs[peg] = d
end

local function pop(peg)
    local d = pegs[peg]
    pegs[peg] = d.below
    d.below = nil
    return d
end

local function move(n, from, to)
    if n == 1 then
        push(pop(from), to)
        moves = moves + 1
    else
        local other = 3 - from - to
        move(n - 1, from, other)
        move(1, from, to)
        move(n - 1, other, to)
    end
end

for i = 20, 1, -1 do push({ size = i }, 0) end
move(20, 0, 2)
print(moves)
