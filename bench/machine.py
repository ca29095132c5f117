"""The programs that bench/machine times, in Python: NAME SIZE, with the names and the sizes of crates/bench_parts."""
import sys


def count(size):
    i = 0
    while i < size:
        i = i + 1
    return i


def calls(n):
    if n < 2:
        return n
    return calls(n - 1) + calls(n - 2)


def sieve(size):
    mark = [0] * size
    n = 0
    k = 0
    while k < 10:
        n = 0
        i = 0
        while i < size:
            mark[i] = 0
            i = i + 1
        i = 2
        while i < size:
            if mark[i] < 1:
                n = n + 1
                j = i + i
                while j < size:
                    mark[j] = 1
                    j = j + i
            i = i + 1
        k = k + 1
    return n


class Record:
    __slots__ = ("value", "next")

    def __init__(self, value, next):
        self.value = value
        self.next = next


def chain(size):
    head = None
    i = 0
    while i < size:
        head = Record(i, head)
        i = i + 1
    sum = 0
    while head is not None:
        sum = (sum + head.value) % 1000003
        head = head.next
    return sum


class Counter:
    __slots__ = ("value",)

    def __init__(self):
        self.value = 0

    def step(self):
        self.value = self.value + 1


def bound(size):
    counter = Counter()
    i = 0
    while i < size:
        counter.step()
        i = i + 1
    return counter.value


programs = {"count": count, "calls": calls, "sieve": sieve, "list": chain, "bound": bound}
print(programs[sys.argv[1]](int(sys.argv[2])))
