#!/usr/bin/env python3
"""One job of 16 ropes and 32 rows on which the walk is long, as a line for the program `vectors`: a chain of neighbouring ropes that hold each other.

  python3 tools/long_walk.py | (time crates/vectors/out/vectors)
"""
import random

n, m, budget = 16, 32, 100000
rng = random.Random(3)
g = [[0] * n for _ in range(n)]
for i in range(n):
    g[i][i] = 2002 if 0 < i < n - 1 else 1001
    if i + 1 < n:
        g[i][i + 1] = g[i + 1][i] = -1000
c = [-900000] + [0] * (n - 2) + [0]
a = [rng.randrange(-3, 4) for _ in range(n * m)]
words = [0, n, m, budget, *[x for row in g for x in row], *c, *a, *[-536870912] * m, *[536870912] * m, *[-32768] * n, *[32767] * n, *[-32768] * n]
print(" ".join(map(str, words)))
