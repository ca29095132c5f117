"""All permutations of ten numbers, by exchange."""

p, count = list(range(11)), 0


def swap(i, j):
    p[i], p[j] = p[j], p[i]


def all_of(n):
    global count
    count += 1
    if n != 1:
        all_of(n - 1)
        for k in range(n - 1, 0, -1):
            swap(n, k)
            all_of(n - 1)
            swap(n, k)


all_of(10)
print(count)
