"""Quicksort of numbers that look like chance."""

N, TIMES = 5000, 20
seed = 74755


def next_number():
    global seed
    seed = (seed * 1309 + 13849) % 65536
    return seed


def sort(a, low, high):
    i, j, pivot = low, high, a[(low + high) // 2]
    while True:
        while a[i] < pivot:
            i += 1
        while pivot < a[j]:
            j -= 1
        if i <= j:
            a[i], a[j] = a[j], a[i]
            i += 1
            j -= 1
        if i > j:
            break
    if low < j:
        sort(a, low, j)
    if i < high:
        sort(a, i, high)


total = 0
for _ in range(TIMES):
    a = [next_number() for _ in range(N)]
    sort(a, 0, N - 1)
    for i in range(1, N):
        assert a[i - 1] <= a[i]
    total = (total + a[N // 2]) % 1000003
print(total)
