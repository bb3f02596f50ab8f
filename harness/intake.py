#!/usr/bin/env python3
"""Writes the cases that the program `test_intake` runs: python3 harness/intake.py > crates/test_intake/stdin

Every expected answer is worked out here, by a check of its own on rows and columns, not by the project's code.
"""
import random

ONE = 1_000_000
LOW, HIGH = -2**63, 2**63 - 1
WORDS = []


def answer(rows, cols, cells):
    """The number and the place for a book: the shape first, then each cell, row by row."""
    if rows != cols or rows < 2:
        return 2, 0
    if rows > 256:
        return 4, 0
    if len(cells) != rows * rows:
        return 5, 0
    table = [cells[i * rows:(i + 1) * rows] for i in range(rows)]
    for i in range(rows):
        for j in range(rows):
            if not -ONE <= table[i][j] <= ONE:
                return 21, i * rows + j
            if i == j and table[i][j] != ONE:
                return 22, i * rows + j
            if table[i][j] != table[j][i]:
                return 23, i * rows + j
    return 0, 0


def case(cells, rows, cols=None, expected=None):
    cols = rows if cols is None else cols
    found = answer(rows, cols, cells)
    assert expected is None or found == expected, (rows, cols, cells, found, expected)
    WORDS.extend([rows, cols, len(cells), *(c % 2**64 for c in cells), *found])


def proper(n, draw):
    """A proper book of n names, with draw() in each pair."""
    table = [[ONE] * n for _ in range(n)]
    for i in range(n):
        for j in range(i):
            table[i][j] = table[j][i] = draw()
    return [c for row in table for c in row]


def changed(cells, *changes):
    cells = list(cells)
    for place, value in changes:
        cells[place] = value
    return cells


def pair(n, i, j, value):
    """The cell in row i and column j, and its mirror."""
    return (i * n + j, value), (j * n + i, value)


def main():
    rng = random.Random(20)

    def cell():
        return rng.randint(-ONE, ONE)

    # proper books
    for n in range(2, 13):
        case(proper(n, cell), n, expected=(0, 0))
    for value in (0, 1, -1, ONE, -ONE, ONE - 1, 1 - ONE):
        for n in (2, 3):
            case(proper(n, lambda: value), n, expected=(0, 0))

    # each cause at every place of small books
    for n in (2, 3, 4):
        for t in range(n * n):
            i, j = divmod(t, n)
            book = proper(n, cell)
            for value in (ONE + 1, -ONE - 1):
                # the mirror before this place, if it is there, differs from it
                case(changed(book, (t, value)), n, expected=(23, j * n + i) if i > j else (21, t))
            if i == j:
                case(changed(book, (t, ONE - 1)), n, expected=(22, t))
                case(changed(book, (t, -ONE)), n, expected=(22, t))
            else:
                other = book[t] - 1 if book[t] > 0 else book[t] + 1
                case(changed(book, (t, other)), n, expected=(23, min(t, j * n + i)))
                case(changed(book, *pair(n, i, j, rng.choice((ONE + 1, -ONE - 1)))), n, expected=(21, min(t, j * n + i)))

    # the last cells of longer books
    for n in (5, 8, 12):
        book = proper(n, cell)
        last = n * n - 1
        case(changed(book, (last, ONE - 1)), n, expected=(22, last))
        case(changed(book, (last, ONE + 1)), n, expected=(21, last))
        case(changed(book, (last - n, ONE + 1)), n, expected=(21, last - n))
        # a pair that differs is named at its cell above the diagonal
        case(changed(book, (last - 1, book[last - 1] // 2 + 1)), n, expected=(23, last - n))

    # two faults in one cell: range before diagonal, range before mirror
    for value in (ONE + 1, -ONE - 1, HIGH, LOW):
        case(changed(proper(3, cell), (4, value)), 3, expected=(21, 4))
        case(changed(proper(3, cell), (1, value)), 3, expected=(21, 1))

    # extreme cells
    edges = (LOW, LOW + 1, -ONE - 1, -ONE, -ONE + 1, -1, 0, 1, ONE - 1, ONE, ONE + 1, HIGH - 1, HIGH)
    for value in edges:
        for t in range(4):
            case(changed(proper(2, lambda: 0), (t, value)), 2)
        case(changed(proper(2, lambda: 0), *pair(2, 0, 1, value)), 2, expected=(0, 0) if -ONE <= value <= ONE else (21, 1))

    # two faults in one book
    for _ in range(60):
        n = rng.randint(2, 5)
        book = proper(n, cell)
        a, b = rng.sample(range(n * n), 2)
        case(changed(book, (a, rng.choice(edges)), (b, rng.choice(edges))), n)
    for _ in range(20):
        case([rng.choice(edges) for _ in range(9)], 3)

    # shapes: 0, 1 and 257 rows, not square, cells too few and too many, no cells
    two = proper(2, cell)
    for rows, cols, cells, expected in (
            (0, 0, [], (2, 0)), (1, 1, [ONE], (2, 0)), (1, 1, [], (2, 0)), (0, 0, two, (2, 0)), (1, 1, two, (2, 0)),
            (2, 3, two, (2, 0)), (3, 2, two, (2, 0)), (1, 4, two, (2, 0)), (4, 1, two, (2, 0)), (2, 2**63, two, (2, 0)),
            (257, 256, two, (2, 0)), (256, 257, two, (2, 0)), (1, 257, [], (2, 0)), (2, 257, two, (2, 0)),
            (257, 257, [], (4, 0)), (257, 257, two, (4, 0)), (258, 258, two, (4, 0)), (2**32, 2**32, [], (4, 0)), (2**64 - 1, 2**64 - 1, two, (4, 0)),
            (256, 256, two, (5, 0)), (256, 256, [], (5, 0)), (2, 2, [], (5, 0)), (2, 2, two[:3], (5, 0)), (2, 2, two + [ONE], (5, 0)),
            (3, 3, two, (5, 0)), (2, 2, proper(3, cell), (5, 0)), (12, 12, proper(12, cell)[:-1], (5, 0)), (12, 12, proper(12, cell) + [0], (5, 0)),
            (2, 2, [LOW, HIGH, 0], (5, 0)), (2, 3, [LOW, HIGH, 0, 0], (2, 0)), (16, 16, proper(16, cell), (0, 0))):
        case(cells, rows, cols, expected)

    print('\n'.join(f'{w:016x}' for w in WORDS))


main()
