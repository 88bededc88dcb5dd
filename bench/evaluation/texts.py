import sys
def step(n):
    return n + 1
def size(l):
    n = 0
    for _ in l:
        n = step(n)
    return n
def repeat(n, l):
    acc = 0
    for _ in range(n):
        acc = acc + size(l + l)
    return acc
print(repeat(int(sys.argv[1]), ["x"] * 1000))
