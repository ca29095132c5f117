"""Numbers that look like chance go into a binary tree, which is then walked."""

N = 100000
seed, last, total = 74755, -1, 0


class Node:
    __slots__ = ("key", "times", "left", "right")

    def __init__(self, key):
        self.key = key
        self.times = 1
        self.left = self.right = None


def next_number():
    global seed
    seed = (seed * 8121 + 28411) % 134456
    return seed


def inserted(t, key):
    if t is None:
        return Node(key)
    if key < t.key:
        t.left = inserted(t.left, key)
    elif key > t.key:
        t.right = inserted(t.right, key)
    else:
        t.times += 1
    return t


def walk(t):
    global last, total
    if t is not None:
        walk(t.left)
        assert last < t.key
        last = t.key
        total = (total + t.key * t.times) % 1000003
        walk(t.right)


root = None
for _ in range(N):
    root = inserted(root, next_number())
walk(root)
print(total)
