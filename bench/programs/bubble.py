"""Bubble sort of numbers that look like chance."""

N, TIMES = 500, 20
seed, a = 74755, [0] * N


def next_number():
    global seed
    seed = (seed * 1309 + 13849) % 65536
    return seed


def sort():
    for top in range(N - 1, 0, -1):
        for i in range(top):
            if a[i] > a[i + 1]:
                a[i], a[i + 1] = a[i + 1], a[i]


total = 0
for _ in range(TIMES):
    for i in range(N):
        a[i] = next_number()
    sort()
    for i in range(1, N):
        assert a[i - 1] <= a[i]
    total = (total + a[N // 2]) % 1000003
print(total)
