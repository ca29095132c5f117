"""Blocks are packed into a box, by search."""

LAST, D, KINDS, TIMES = 511, 8, 13, 10
full = [True] * (LAST + 1)
piece, kinds, last = [None] * KINDS, [0] * KINDS, [0] * KINDS
left, tries = [0] * 4, 0


def fits(i, at):
    cells = piece[i]
    for k in range(last[i] + 1):
        if cells[k] and full[at + k]:
            return False
    return True


def place(i, at):
    cells = piece[i]
    for k in range(last[i] + 1):
        if cells[k]:
            full[at + k] = True
    left[kinds[i]] -= 1
    for k in range(at, LAST + 1):
        if not full[k]:
            return k
    return 0


def remove(i, at):
    cells = piece[i]
    for k in range(last[i] + 1):
        if cells[k]:
            full[at + k] = False
    left[kinds[i]] += 1


def attempt(at):
    global tries
    tries += 1
    for i in range(KINDS):
        if left[kinds[i]] != 0 and fits(i, at):
            following = place(i, at)
            if following == 0 or attempt(following):
                return True
            remove(i, at)
    return False


def define(i, a, b, c, kind):
    piece[i] = [False] * (LAST + 1)
    for x in range(a + 1):
        for y in range(b + 1):
            for z in range(c + 1):
                piece[i][x + D * (y + D * z)] = True
    kinds[i], last[i] = kind, a + D * (b + D * c)


def solve():
    for i in range(LAST + 1):
        full[i] = True
    for x in range(1, 6):
        for y in range(1, 6):
            for z in range(1, 6):
                full[x + D * (y + D * z)] = False
    left[:] = [13, 3, 1, 1]
    at = 1 + D * (1 + D)
    assert fits(0, at)
    assert attempt(place(0, at))


for i, (a, b, c, kind) in enumerate([
        (3, 1, 0, 0), (1, 0, 3, 0), (0, 3, 1, 0), (1, 3, 0, 0), (3, 0, 1, 0), (0, 1, 3, 0),
        (2, 0, 0, 1), (0, 2, 0, 1), (0, 0, 2, 1), (1, 1, 0, 2), (1, 0, 1, 2), (0, 1, 1, 2), (1, 1, 1, 3)]):
    define(i, a, b, c, kind)
for _ in range(TIMES):
    solve()
print(tries)
