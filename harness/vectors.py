#!/usr/bin/env python3
"""Writes the cases that the program `test_examples` runs: python3 harness/vectors.py > crates/test_examples/stdin

Every expected answer is worked out here, with Python's doubles and its correctly rounded math.sqrt, from the
definitions as the papers give them (IEEE 754 for the root, Rousseeuw 1987 for the silhouette), not by the project's code.
"""
import math
import random
import struct

NAN, INF = float('nan'), float('inf')
MARK = 7.0          # what an output list holds before a call
WORDS = []


def bits(x):
    return 0x7FF8000000000000 if x != x else struct.unpack('<Q', struct.pack('<d', x))[0]


def double(b):
    return struct.unpack('<d', struct.pack('<Q', b))[0]


def case(leaf, n=0, a=(), b=(), out=0, floats=0, i=0, j=0, number=0, place=0, values=(), pattern=None):
    """One case; b is a list of doubles for leaf 7 and of whole numbers elsewhere; pattern: bits for a's only value."""
    WORDS.extend([leaf, n, len(a), len(b), out, floats, i, j])
    WORDS.extend([pattern] if pattern is not None else [bits(x) for x in a])
    WORDS.extend([bits(x) for x in b] if leaf == 7 else b)
    WORDS.extend([number, place, len(values)])
    WORDS.extend(bits(x) for x in values)


def divide(x, y):
    if y != 0:
        return x / y
    if x != x or x == 0:
        return NAN
    return math.copysign(INF, x) * math.copysign(1, y)


def total(xs):
    s = 0.0
    for x in xs:
        s = s + x
    return s


def root(x):
    if x != x or x < 0:
        return NAN
    return x if x == 0 or x == INF else math.sqrt(x)


def square(x):
    return x * x


def mean(xs):
    if not xs:
        return None
    if math.isfinite(xs[0]) and all(bits(x) == bits(xs[0]) for x in xs):
        return xs[0]
    return divide(total(xs), float(len(xs)))


def variance(xs, ddof):
    if not xs or len(xs) <= ddof:
        return None
    m = mean(xs)
    return divide(total(square(x - m) for x in xs), float(len(xs) - ddof))


def std_dev(xs, ddof):
    v = variance(xs, ddof)
    return None if v is None else root(v)


def tstat(xs):
    if not xs:
        return 0.0
    m, s = mean(xs), std_dev(xs, 0)
    if s <= 1e-12:
        return INF if m > 0 else 0.0
    return divide(m, s)


def plain_mean(xs):
    return divide(total(xs), float(len(xs)))


def silhouettes(pairs, n, labels):
    scores = []
    for i in range(n):
        own = [j for j in range(n) if labels[j] == labels[i] and j != i]
        if not own:
            scores.append(0.0)
            continue
        a = divide(total(pairs[i * n + j] for j in own), float(len(own)))
        b = INF
        for l in sorted(set(labels)):
            if l != labels[i]:
                members = [j for j in range(n) if labels[j] == l]
                m = divide(total(pairs[i * n + j] for j in members), float(len(members)))
                if m < b:
                    b = m
        if not math.isfinite(b) or (a == 0 and b == 0):
            scores.append(0.0)
        else:
            scores.append(divide(b - a, b if a < b else a))
    return scores


def distance(c):
    c = -1.0 if c < -1 else 1.0 if c > 1 else c
    return root((1.0 - c) / 2.0)


def squared(a, b):
    return total(square(x - y) for x, y in zip(a, b))


def pair_distances(points, m):
    rows = [points[i * m:i * m + m] for i in range(m)]
    return [root(squared(rows[i], rows[j])) for i in range(m) for j in range(m)]


def through(book, n, rows):
    return [book[r * n + s] for r in rows for s in rows]


def room(m):
    return 8 * m * m + 256 * m


# ---- the root: IEEE 754's special values, ends of binades, subnormals, squares and their neighbours
for b in [0, 1 << 63, 1, 2, 3, 4, 0xFFFFFFFFFFFFF, 0x10000000000000, 0x10000000000001, 0x7FEFFFFFFFFFFFFF, 0x7FF0000000000000, 0xFFF0000000000000,
          0x7FF0000000000001, 0x7FF8000000000000, 0xFFF8000000000000, 0xFFFFFFFFFFFFFFFF, 0x8000000000000001, 0xBFF0000000000000,
          0x3FEFFFFFFFFFFFFF, 0x3FF0000000000000, 0x3FF0000000000001, 0x3FFFFFFFFFFFFFFF, 0x4000000000000000, 0x4000000000000001,
          0x400FFFFFFFFFFFFF, 0x4010000000000000, 0x3FD0000000000000, 0x3FE0000000000000, 0x0008000000000000, 0x1FF0000000000000]:
    case(1, a=(0.0,), pattern=b, values=(root(double(b)),))
RANDOM = random.Random(20261115)
for _ in range(12):
    q = RANDOM.getrandbits(26) + (1 << 26)
    for d in (-1, 0, 1):
        x = double(bits(float(q * q)) + d)
        case(1, a=(x,), values=(root(x),))
for _ in range(30):
    x = double(RANDOM.getrandbits(63))
    case(1, a=(x,), values=(root(x),))

# ---- averages
LISTS = [[], [1.0], [-0.0], [-0.0, 0.0], [0.1, 0.1, 0.1], [1.0, 2.0, 6.0], [2.0, 4.0, 4.0, 4.0, 5.0, 5.0, 7.0, 9.0], [1.0, 3.0], [0.5, 0.5], [-0.5, -0.5],
         [NAN], [NAN, NAN], [INF], [INF, INF], [INF, -INF], [1.0, NAN, 2.0], [1e308, 1e308, -1e308], [5e-324, 5e-324, 5e-324], [1e-13, 2e-13], [-1e-13, -2e-13],
         [1.0, 1.0 + 2**-52], [0.1, 0.2, 0.3], [1e16, 1.0, -1e16], [1.0, 2.0, 3.0, 4.0]]
LISTS += [[RANDOM.uniform(-1, 1) for _ in range(RANDOM.randrange(2, 7))] for _ in range(6)]
for xs in LISTS:
    def shown(x):
        return () if x is None else (x,)
    case(2, a=xs, values=shown(mean(xs)))
    for ddof in (0, 1):
        case(3, n=ddof, a=xs, values=shown(variance(xs, ddof)))
        case(4, n=ddof, a=xs, values=shown(std_dev(xs, ddof)))
    case(5, a=xs, values=(tstat(xs),))
    case(6, a=xs, values=(plain_mean(xs),))
case(3, n=8, a=LISTS[6])
case(4, n=9, a=LISTS[6])
for which in range(5):
    whole = [0.5] * 65536
    case(15, n=65537, i=which, number=4)
    case(15, n=65536, i=which, values=(([mean(whole), variance(whole, 0), std_dev(whole, 0), tstat(whole), plain_mean(whole)][which]),))

# ---- squared distances of two lists: over the columns that both have
for a, b in [([], []), ([1.0], []), ([1.0, 2.0], [4.0, 6.0]), ([1.0, 2.0, 5.0], [4.0, 6.0]), ([NAN], [1.0]), ([INF], [INF]), ([0.1, 0.2, 0.3], [0.3, 0.1, 0.7])]:
    case(7, a=a, b=b, values=(squared(a, b),))

# ---- books
ODD = [1.0, 0.25, -2.0, NAN, 0.25, 1.0, INF, -INF, 0.5]
BOOKS = [(2, [1.0, 0.0, 0.0, 1.0]), (2, [1.0, 0.3, -0.6, 1.0]), (3, ODD), (3, [1.0, 0.9, 0.1, 0.9, 1.0, 0.2, 0.1, 0.2, 1.0])]
BOOKS.append((4, [RANDOM.uniform(-1, 1) for _ in range(16)]))
for n, book in BOOKS:
    case(8, n=n, a=book, out=n * n, values=[distance(c) for c in book])
    points = [distance(c) for c in book]
    case(11, n=n, a=points, out=n * n, floats=room(n) + 3, values=pair_distances(points, n))
    for rows in ([1, 0], [n - 1, 0, n - 1], list(range(n))[::-1]):
        m, cells = len(rows), through(book, n, rows)
        points = [distance(c) for c in cells]
        case(9, n=n, a=book, b=rows, out=m * m, values=points)
        case(10, n=n, a=book, b=rows, out=m * m, values=cells)
        case(12, n=n, a=book, b=rows, out=m * m, floats=room(m) + 2, values=pair_distances(points, m))
        case(14, n=n, a=book, b=rows, i=0, j=m - 1, values=(squared(points[:m], points[(m - 1) * m:]),))

# ---- silhouettes: Rousseeuw's a and b, lone names, one group, NaN, infinite and asymmetric distances
GROUPS = [(3, [0.0, 1.0, 2.0, 1.0, 0.0, 4.0, 2.0, 4.0, 0.0], [0, 0, 1]), (3, [0.0, 1.0, 2.0, 1.0, 0.0, 4.0, 2.0, 4.0, 0.0], [2, 2, 0]),
          (3, [0.0, 1.0, 2.0, 1.0, 0.0, 4.0, 2.0, 4.0, 0.0], [0, 1, 2]), (3, [0.0, 1.0, 2.0, 1.0, 0.0, 4.0, 2.0, 4.0, 0.0], [1, 1, 1]),
          (4, [NAN, 1.0, 2.0, 3.0, 1.0, 0.0, 4.0, 1.0, 2.0, 4.0, NAN, 1.0, NAN, 1.0, 1.0, 0.0], [0, 0, 3, 3]),
          (4, [0.0, 1.0, INF, INF, 1.0, 0.0, INF, INF, 2.0, 4.0, 0.0, 1.0, 3.0, 1.0, 1.0, 0.0], [1, 1, 2, 2]),
          (4, [0.0] * 16, [0, 0, 1, 1]), (3, [0.0, -0.0, -1.0, -0.0, 0.0, 1.0, -1.0, 1.0, 0.0], [0, 0, 1])]
for n in (4, 5):
    for _ in range(4):
        GROUPS.append((n, [RANDOM.choice([0.0, 0.5, 1.0, RANDOM.random(), RANDOM.random()]) for _ in range(n * n)], [RANDOM.randrange(n) for _ in range(n)]))
for n, pairs, labels in GROUPS:
    case(13, n=n, a=pairs, b=labels, out=n, floats=room(n) + 1, values=silhouettes(pairs, n, labels))

# ---- the dissimilarities of twelve countries in three groups, Rousseeuw's example of 1987, and the silhouettes with two decimals
# Belgium, Brazil, China, Cuba, Egypt, France, India, Israel, USA, USSR, Yugoslavia, Zaire
BELOW = [[], [5.58], [7.00, 6.50], [7.08, 7.00, 3.83], [4.83, 5.08, 8.17, 5.83], [2.17, 5.75, 6.67, 6.92, 4.92], [6.42, 5.00, 5.58, 6.00, 4.67, 6.42],
         [3.42, 5.50, 6.42, 6.42, 5.00, 3.92, 6.17], [2.50, 4.92, 6.25, 7.33, 4.50, 2.25, 6.33, 2.75], [6.08, 6.67, 4.25, 2.67, 6.00, 6.17, 6.17, 6.92, 6.17],
         [5.25, 6.83, 4.50, 3.75, 5.75, 5.42, 6.08, 5.83, 6.67, 3.67], [4.75, 3.00, 6.08, 6.67, 5.00, 5.58, 4.83, 6.17, 5.67, 6.50, 6.92]]
PAIRS = [0.0 if i == j else BELOW[max(i, j)][min(i, j)] for i in range(12) for j in range(12)]
IN_GROUPS = [0, 1, 2, 2, 0, 0, 1, 0, 0, 2, 2, 1]
SCORES = silhouettes(PAIRS, 12, IN_GROUPS)
assert [round(s, 2) for s in SCORES] == [0.42, 0.25, 0.31, 0.48, 0.02, 0.44, 0.17, 0.37, 0.47, 0.44, 0.31, 0.28]
case(13, n=12, a=PAIRS, b=IN_GROUPS, out=12, floats=room(12) + 1, values=SCORES)

# ---- refusals, in the table's order: every list as it was
BOOK = [1.0, 0.5, 0.5, 1.0]
def refused(leaf, number, place=0, **given):
    case(leaf, number=number, place=place, values=[MARK] * given.get('out', 0), **given)
for leaf in (8, 9, 10, 11, 12, 13):
    rows = [] if leaf in (8, 11) else [0, 1]
    size = 2 if leaf == 13 else 4
    work = room(2) if leaf > 10 else 0
    refused(leaf, 2, n=0, a=[], b=rows, out=size, floats=work)
    refused(leaf, 2, n=1, a=[1.0], b=rows, out=size, floats=work)
    refused(leaf, 4, n=257, a=BOOK, b=rows, out=size, floats=work)
    refused(leaf, 4, n=(1 << 62), a=BOOK, b=rows, out=size, floats=work)
    refused(leaf, 5, n=2, a=BOOK[:3], b=rows, out=size - 1, floats=0)
    refused(leaf, 5, n=3, a=BOOK, b=rows, out=size, floats=work)
    refused(leaf, 6, n=2, a=BOOK, b=rows, out=size - 1, floats=work)
    refused(leaf, 6, n=2, a=BOOK, b=rows, out=size + 1, floats=work)
    if leaf > 10:
        refused(leaf, 6, n=2, a=BOOK, b=rows, out=size, floats=work - 1)
        refused(leaf, 6, n=2, a=BOOK, b=rows, out=size, floats=0)
    if rows:
        refused(leaf, 10, 1, n=2, a=BOOK, b=[0, 2], out=size, floats=work)
        refused(leaf, 10, 0, n=2, a=BOOK, b=[1 << 63, 2], out=size, floats=work)
    if leaf in (9, 10, 12):
        refused(leaf, 2, n=2, a=BOOK, b=[], out=0, floats=work)
        refused(leaf, 2, n=2, a=BOOK, b=[0], out=1, floats=work)
    if leaf == 13:
        refused(leaf, 6, n=2, a=BOOK, b=[0], out=2, floats=work)
        refused(leaf, 6, n=2, a=BOOK, b=[0, 1, 5], out=2, floats=work)
refused(14, 10, 1, n=2, a=BOOK, b=[0, 9], i=7, j=0)
refused(14, 10, 2, n=2, a=BOOK, b=[0, 1], i=2, j=9)
refused(14, 10, 3, n=2, a=BOOK, b=[0, 1], i=1, j=2)
refused(14, 2, n=2, a=BOOK, b=[0], i=1, j=2)
refused(14, 5, n=2, a=BOOK[:3], b=[0, 1], i=1, j=2)

for w in WORDS:
    print(f'{w:016x}')
