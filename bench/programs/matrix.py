"""Products of two matrices of integers."""

N, TIMES = 40, 100
seed = 74755


def next_number():
    global seed
    seed = (seed * 1309 + 13849) % 65536
    return seed


def filled():
    return [[next_number() % 120 - 60 for _ in range(N)] for _ in range(N)]


def multiply(x, y, to):
    for i in range(N):
        row, out = x[i], to[i]
        for j in range(N):
            total = 0
            for k in range(N):
                total += row[k] * y[k][j]
            out[j] = total


a, b = filled(), filled()
c = [[0] * N for _ in range(N)]
for _ in range(TIMES):
    multiply(a, b, c)
print(sum(c[i][i] for i in range(N)))
