-- Eight queens on a board: all ways, two hundred times.
local row, up, down, count = {}, {}, {}, 0

local function try(col)
    if col == 8 then
        count = count + 1
    else
        for r = 0, 7 do
            if row[r] and up[col + r] and down[col - r + 7] then
                row[r], up[col + r], down[col - r + 7] = false, false, false
                try(col + 1)
                row[r], up[col + r], down[col - r + 7] = true, true, true
            end
        end
    end
end

for i = 0, 14 do row[i], up[i], down[i] = true, true, true end
for _ = 1, 200 do try(0) end
print(count)
