-- All permutations of ten numbers, by exchange.
local p, count = {}, 0

local function swap(i, j) p[i], p[j] = p[j], p[i] end

local function all(n)
    count = count + 1
    if n ~= 1 then
        all(n - 1)
        for k = n - 1, 1, -1 do
            swap(n, k)
            all(n - 1)
            swap(n, k)
        end
    end
end

for i = 1, 10 do p[i] = i end
all(10)
print(count)
