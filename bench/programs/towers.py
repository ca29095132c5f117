"""The towers of Hanoi, on linked cells."""


class Disk:
    __slots__ = ("size", "below")

    def __init__(self, size):
        self.size = size
        self.below = None


pegs, moves = [None, None, None], 0


def push(d, peg):
    if pegs[peg] is not None:
        assert d.size < pegs[peg].size
    d.below = pegs[peg]
    pegs[peg] = d


def pop(peg):
    d = pegs[peg]
    pegs[peg] = d.below
    d.below = None
    return d


def move(n, start, end):
    global moves
    if n == 1:
        push(pop(start), end)
        moves += 1
    else:
        other = 3 - start - end
        move(n - 1, start, other)
        move(1, start, end)
        move(n - 1, other, end)


for i in range(20, 0, -1):
    push(Disk(i), 0)
move(20, 0, 2)
print(moves)
