"""Eight queens on a board: all ways, two hundred times."""

row, up, down, count = [True] * 15, [True] * 15, [True] * 15, 0


def attempt(col):
    global count
    if col == 8:
        count += 1
    else:
        for r in range(8):
            if row[r] and up[col + r] and down[col - r + 7]:
                row[r] = up[col + r] = down[col - r + 7] = False
                attempt(col + 1)
                row[r] = up[col + r] = down[col - r + 7] = True


for _ in range(200):
    attempt(0)
print(count)
