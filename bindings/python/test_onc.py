"""Tests of the module onc: python3 -m unittest, in this folder."""

import array
import ctypes
import decimal
import fractions
import math
import os
import pickle
import random
import struct
import subprocess
import sys
import threading
import unittest

import onc
import random_draws

HERE = os.path.dirname(os.path.abspath(__file__))
NAN = float("nan")

# Four names in two pairs, 0.875 within a pair and 0.125 across.
PAIRS = [
    [1.0, 0.875, 0.125, 0.125],
    [0.875, 1.0, 0.125, 0.125],
    [0.125, 0.125, 1.0, 0.875],
    [0.125, 0.125, 0.875, 1.0],
]
FLAT = [cell for row in PAIRS for cell in row]
# A book that is not its own mirror, so that a transposed reading shows.
SLANTED = [[1.0, 0.5, 0.25], [0.75, 1.0, -0.5], [0.125, -0.25, 1.0]]
# Six names in three pairs, by which the rounds do not end.
ENDLESS = [
    [1.0 if i == j else 0.875 if i // 2 == j // 2 else 0.21875 if i % 2 and j % 2 else 0.0546875 for j in range(6)] for i in range(6)
]


def bits(value):
    """The bits of a double, all NaNs as one."""
    return 0x7FF8 << 48 if math.isnan(value) else struct.unpack("<Q", struct.pack("<d", value))[0]


def blocks(n):
    """Names in blocks of eight, 0.75 within a block and 0.125 across."""
    return [[1.0 if i == j else 0.75 if i // 8 == j // 8 else 0.125 for j in range(n)] for i in range(n)]


# What the unchanged Rust answers by a seed, as harness/oracle/openquant/examples/seeded.rs prints it: the draws of 42 on PAIRS, and of TWELVE the scores of
# the six pairs and of the five groups, and repeat, seed, groups, scores and draws of each run.
DRAWS_OF_42 = [
    0, 2240436130339214, 7822091515682305, 2, 3656038014234310, 309332604289587, 3737598995710448, 6642128755826959, 7649378418684374, 1182455112672144,
]  # fmt: skip
# Twelve names in six pairs, unevenly alike.
TWELVE = [[1.0 if i == j else ((32 if i // 2 == j // 2 else 0) + (3 * i * j + 9 * (i + j)) % 16) / 64 for j in range(12)] for i in range(12)]
SIX_PAIRS = [
    0x3FD7C6AA1FB3AA44, 0x3FD8CDA7090EEF9F, 0x3FDCF2C767DD6EB6, 0x3FDC9C63982DF4CA, 0x3FDC87190A0E9C93, 0x3FDC1601FB02DC5E,
    0x3FD126AAD5CE6260, 0x3FD02367D55CBE56, 0x3FCC9FA0254C1C37, 0x3FCFB03C608650D2, 0x3FD62CF7F30D5D0D, 0x3FD4C3CED6B52A5A,
]  # fmt: skip
FIVE_GROUPS = [
    0x3FD8C06ADE0E84C5, 0x3FD8EC56AD15BFCD, 0x3FDD0DA72B4E73CF, 0x3FDD3A7EA809FEE0, 0x3FDC87190A0E9C93, 0x3FDC295B2DEDD8B7,
    0x3FBF226D9A2652DA, 0x3FBB3AD52FD86F00, 0x3FBEF9E9AEE405DA, 0x3FB9EFE078A14F25, 0x3FD62CF7F30D5D0D, 0x3FD584222FA3738D,
]  # fmt: skip
KNOWN = [
    (1, 0, [[4, 5], [2, 3], [10, 11], [0, 1], [8, 9], [6, 7]], SIX_PAIRS, 276),
    (1, 7, [[2, 3], [4, 5], [6, 7, 8, 9], [10, 11], [0, 1]], FIVE_GROUPS, 276),
    (1, 42, [[0, 1], [6, 7, 8, 9], [2, 3], [10, 11], [4, 5]], FIVE_GROUPS, 309),
    (1, 2**64 - 1, [[4, 5], [2, 3], [0, 1], [6, 7], [8, 9], [10, 11]], SIX_PAIRS, 276),
    (2, 42, [[4, 5], [2, 3], [6, 7], [0, 1], [10, 11], [8, 9]], SIX_PAIRS, 552),
]


class Case(unittest.TestCase):
    def assertRefused(self, number, place, call, *arguments, **named):
        with self.assertRaises(onc.Refusal) as caught:
            call(*arguments, **named)
        self.assertEqual((caught.exception.number, caught.exception.place), (number, place))

    def assertWhole(self, found, book, names):
        """What holds of every grouping of this book."""
        n = len(names)
        row = {name: i for i, name in enumerate(names)}
        self.assertEqual(sorted(row[name] for name in found.order), list(range(n)))
        self.assertEqual([name for members in found.groups for name in members], found.order)
        self.assertEqual([len(members) for members in found.groups], found.sizes)
        self.assertTrue(all(found.sizes))
        self.assertEqual((list(found.scores), list(found.labels)), (list(names), list(names)))
        self.assertTrue(all(-1 <= score <= 1 for score in found.scores.values()))
        for number, members in enumerate(found.groups):
            self.assertTrue(all(found.labels[name] == number for name in members))
        expected = [[bits(book[row[a]][row[b]]) for b in found.order] for a in found.order]
        self.assertEqual([[bits(cell) for cell in cells] for cells in found.ordered], expected)


class BySeed(Case):
    def test_bit_for_bit(self):
        found = onc.group(PAIRS, 42)
        self.assertEqual((found.groups, found.sizes, found.draws_read), ([[0, 1], [2, 3]], [2, 2], 10))
        self.assertEqual([bits(found.scores[i]) for i in range(4)], [0x3FE5BADBD0CF64DA] * 4)
        self.assertWhole(found, PAIRS, range(4))
        self.assertEqual(onc.group(PAIRS, 0).groups, [[2, 3], [0, 1]])
        for repeat, seed, groups, scores, draws in KNOWN:
            found = onc.group(TWELVE, seed, repeat)
            self.assertEqual((found.groups, found.draws_read), (groups, draws))
            self.assertEqual([bits(found.scores[i]) for i in range(12)], scores)
            self.assertWhole(found, TWELVE, range(12))
            self.assertEqual(onc.group(book=TWELVE, seed=seed, repeat=repeat, names=None), found)

    def test_a_seed_and_the_list_of_its_draws(self):
        self.assertEqual(onc.group(PAIRS, 42), onc.group_with_draws(PAIRS, DRAWS_OF_42))

    def test_the_default_seed(self):
        self.assertEqual(onc.DEFAULT_SEED, 42)
        for book in (PAIRS, TWELVE, blocks(24), [[NAN] * 6] * 6):
            self.assertEqual(repr(onc.group(book)), repr(onc.group(book, 42)))

    def test_by_name(self):
        names = ["A", ("B", 2), 3.5, None]
        found = onc.group(PAIRS, names=names)
        self.assertEqual((found.groups, found.labels["A"]), ([["A", ("B", 2)], [3.5, None]], 0))
        self.assertWhole(found, PAIRS, names)
        with self.assertRaises(ValueError):
            onc.group(PAIRS, names=["A", "B", "C"])
        with self.assertRaises(TypeError):
            onc.group(PAIRS, names="ABCD")

    def test_the_most_names(self):
        book = blocks(256)
        found = onc.group(book)
        self.assertWhole(found, book, range(256))
        self.assertEqual(sorted(sorted(members) for members in found.groups), [list(range(i, i + 8)) for i in range(0, 256, 8)])

    def test_refusals(self):
        for seed in (0, 42, 2**64 - 1):
            self.assertRefused(1, None, onc.group, [[1]], seed, 0)
            self.assertRefused(1, None, onc.group, PAIRS, seed, 0)
            self.assertRefused(2, None, onc.group, [[1]], seed)
            self.assertRefused(2, None, onc.group, [], seed)
            self.assertRefused(2, None, onc.group, PAIRS[:3], seed)
            self.assertRefused(4, None, onc.group, PAIRS, seed, 65)
            self.assertRefused(4, None, onc.group, PAIRS, seed, 2**64 - 1)
            self.assertRefused(4, None, onc.group, blocks(257), seed)
        self.assertRefused(9, None, onc.group, ENDLESS)

    def test_seeds(self):
        expected = onc.group(PAIRS, 1)
        for seed in (True, ctypes.c_uint64(1).value, fractions.Fraction(1).numerator):
            self.assertEqual(onc.group(PAIRS, seed), expected)
        for seed in (0, 2**32, 2**53, 2**63, 2**64 - 1):
            self.assertWhole(onc.group(PAIRS, seed), PAIRS, range(4))
        # no seed stands for another one
        self.assertEqual(len({repr(onc.group(TWELVE, seed)) for seed in (0, 2**32, 2**63, 2**64 - 1)}), 4)
        for seed in (-1, 2**64, 10**30):
            with self.assertRaisesRegex(ValueError, "^seed is below 0 or not below 2[*][*]64$"):
                onc.group(PAIRS, seed)
        for seed in (1.0, "42", None, [0] * 10, b"1", fractions.Fraction(1)):
            with self.assertRaisesRegex(TypeError, "^seed is {}, not a whole number$".format(type(seed).__name__)):
                onc.group(PAIRS, seed)
        for repeat, error in ((-1, ValueError), (2**64, ValueError), (1.0, TypeError), (None, TypeError)):
            with self.assertRaises(error):
                onc.group(PAIRS, repeat=repeat)

    def test_books(self):
        expected = onc.group(SLANTED)
        flat = array.array("d", [cell for row in SLANTED for cell in row])
        for book in (tuple(map(tuple, SLANTED)), flat, memoryview(flat).cast("B").cast("d", (3, 3)), array.array("f", flat)):
            self.assertEqual(onc.group(book), expected)
        for book in (None, "1001", [1, 0, 0, 1], array.array("i", [1, 0, 0, 1])):
            with self.assertRaises(TypeError, msg=repr(book)):
                onc.group(book)
        with self.assertRaises(ValueError):
            onc.group([[1, 0], [0]])

    def test_several_threads(self):
        expected, found = onc.group(blocks(24)), []
        threads = [threading.Thread(target=lambda: found.extend(onc.group(blocks(24)) for _ in range(10))) for _ in range(4)]
        for thread in threads:
            thread.start()
        for thread in threads:
            thread.join()
        self.assertEqual(found, [expected] * 40)


class WithDraws(Case):
    def test_the_first_grouping_bit_for_bit(self):
        found = onc.group_with_draws(PAIRS, [0] * 10)
        self.assertEqual(found.groups, [[2, 3], [0, 1]])
        self.assertEqual(found.labels, {0: 1, 1: 1, 2: 0, 3: 0})
        self.assertEqual((found.order, found.sizes, found.draws_read), ([2, 3, 0, 1], [2, 2], 10))
        self.assertEqual([bits(found.scores[i]) for i in range(4)], [0x3FE5BADBD0CF64DA] * 4)
        self.assertWhole(found, PAIRS, range(4))

    def test_by_name(self):
        names = ["A", ("B", 2), 3.5, None]
        found = onc.group_with_draws(PAIRS, [0] * 10, names=names)
        self.assertEqual(found.groups, [[3.5, None], ["A", ("B", 2)]])
        self.assertEqual(found.order, [3.5, None, "A", ("B", 2)])
        self.assertEqual(found.labels, {"A": 1, ("B", 2): 1, 3.5: 0, None: 0})
        self.assertEqual(bits(found.scores["A"]), 0x3FE5BADBD0CF64DA)
        self.assertWhole(found, PAIRS, names)

    def test_two_names_apart(self):
        found = onc.group_with_draws([[1, 0], [0, 1]], [0, 0, 1 << 52])
        self.assertEqual((found.groups, found.scores, found.draws_read), ([[0], [1]], {0: 0.0, 1: 0.0}, 3))

    def test_alike_and_nan_books_are_one_group(self):
        for cell in (1.0, NAN):
            found = onc.group_with_draws([[cell] * 2] * 2, [0, 0, 0])
            self.assertEqual((found.groups, [bits(s) for s in found.scores.values()]), ([[0, 1]], [0, 0]))
            self.assertWhole(found, [[cell] * 2] * 2, range(2))
        self.assertWhole(onc.group_with_draws([[NAN] * 6] * 6, [0] * onc.draws_enough(6, 2), repeat=2), [[NAN] * 6] * 6, range(6))

    def test_the_most_names(self):
        book = blocks(256)
        found = onc.group_with_draws(book, [0] * onc.draws_enough(256))
        self.assertWhole(found, book, range(256))
        self.assertGreaterEqual(found.draws_read, onc.draws_for(256))

    def test_refusals_before_the_run(self):
        draws = [0] * 10
        self.assertRefused(1, None, onc.group_with_draws, [[1]], draws, repeat=0)
        self.assertRefused(1, None, onc.group_with_draws, PAIRS, draws, repeat=0)
        self.assertRefused(2, None, onc.group_with_draws, [[1]], draws)
        self.assertRefused(2, None, onc.group_with_draws, [], draws)
        self.assertRefused(2, None, onc.group_with_draws, [[], []], draws)
        self.assertRefused(2, None, onc.group_with_draws, PAIRS[:3], draws)
        self.assertRefused(4, None, onc.group_with_draws, PAIRS, draws, repeat=65)
        self.assertRefused(4, None, onc.group_with_draws, PAIRS, draws, repeat=2**64 - 1)
        self.assertRefused(4, None, onc.group_with_draws, blocks(257), draws)

    def test_refusals_of_the_run(self):
        ones = [[1, 1], [1, 1]]
        self.assertRefused(7, 0, onc.group_with_draws, ones, [0, 0])
        self.assertRefused(7, 0, onc.group_with_draws, ones, [])
        self.assertRefused(8, 0, onc.group_with_draws, ones, [2, 0, 0])
        self.assertRefused(8, 2, onc.group_with_draws, ones, [0, 0, 2**64 - 1])
        self.assertRefused(8, 2, onc.group_with_draws, [[1, 0], [0, 1]], [0, 0, 2**53])
        count = onc.draws_for(6)
        self.assertRefused(9, None, onc.group_with_draws, ENDLESS, [0] * 32 * count)
        self.assertRefused(7, 3 * count, onc.group_with_draws, ENDLESS, [0] * (3 * count + 1))

    def test_several_threads(self):
        draws = [0] * onc.draws_enough(24)
        expected, found = onc.group_with_draws(blocks(24), draws), []
        threads = [threading.Thread(target=lambda: found.extend(onc.group_with_draws(blocks(24), draws) for _ in range(10))) for _ in range(4)]
        for thread in threads:
            thread.start()
        for thread in threads:
            thread.join()
        self.assertEqual(found, [expected] * 40)


class Recorded(Case):
    """Recorded runs, which are the unchanged Rust's. The layout stands in the first lines of crates/test_runs/src/main.rt."""

    def recorded(self, crate, call):
        """Makes every call of a crate's cases that can be made: the function that a case's draws give, and its arguments before the repeat. How many
        groupings and refusals there are."""
        with open(os.path.join(HERE, "..", "..", "crates", crate, "stdin")) as text:
            words = [int(word, 16) for word in text.read().split()]
        at, groupings, refusals = 0, 0, 0
        double = lambda word: struct.unpack("<d", struct.pack("<Q", word))[0]
        while at < len(words):
            rows, cols, repeat, cells, draws = words[at : at + 5]
            outputs = words[at + 5 : at + 9]
            at += 12
            lists = []
            for length in [cells, draws, 4] + outputs:
                lists.append(words[at : at + length])
                at += length
            book, draws, told, order, sizes, scores, ordered = lists
            # A book in Python is square by its rows, and its lists are made here: what lends other lengths cannot be called.
            if rows != cols or cells != rows * cols or told[0] == 6:
                continue
            book = [[double(word) for word in book[i * rows : i * rows + rows]] for i in range(rows)]
            function, arguments = call(book, draws)
            if told[0] != 0:
                refusals += 1
                self.assertRefused(told[0], told[1] if told[0] in (7, 8) else None, function, *arguments, repeat=repeat)
                continue
            groupings += 1
            found = function(*arguments, repeat=repeat)
            self.assertEqual((told[2], told[3]), (len(found.groups), found.draws_read))
            self.assertEqual((order, sizes[: told[2]]), (found.order, found.sizes))
            self.assertEqual([bits(double(word)) for word in scores], [bits(found.scores[i]) for i in range(rows)])
            self.assertEqual([bits(double(word)) for word in ordered], [bits(cell) for row in found.ordered for cell in row])
        self.assertEqual(at, len(words))
        return groupings, refusals

    def test_recorded_runs(self):
        groupings, refusals = self.recorded("test_runs", lambda book, draws: (onc.group_with_draws, [book, draws]))
        self.assertGreater(groupings, 200)
        self.assertGreater(refusals, 50)

    def test_recorded_runs_by_a_seed(self):
        """One word in place of the draws is the seed; without it no seed is named."""
        groupings, refusals = self.recorded("test_seeds", lambda book, seed: (onc.group, [book] + seed))
        self.assertGreater(groupings, 100)
        self.assertGreater(refusals, 5)


class Books(Case):
    """What a book may be, and that no buffer is misread."""

    def assertRead(self, book, expected):
        n = len(expected)
        found = onc.group_with_draws(book, [0] * onc.draws_enough(n))
        self.assertEqual(found, onc.group_with_draws(expected, [0] * onc.draws_enough(n)))
        self.assertWhole(found, expected, range(n))

    def test_lists_and_tuples(self):
        self.assertRead(tuple(tuple(row) for row in PAIRS), PAIRS)
        self.assertRead([array.array("d", row) for row in PAIRS], PAIRS)
        self.assertRead([memoryview(array.array("f", row)) for row in PAIRS], PAIRS)
        self.assertRead([[fractions.Fraction(cell) for cell in row] for row in PAIRS], PAIRS)
        self.assertRead([[decimal.Decimal(cell) for cell in row] for row in PAIRS], PAIRS)
        self.assertRead([[1, False], [False, True]], [[1.0, 0.0], [0.0, 1.0]])

    def test_buffers_of_doubles(self):
        flat = [cell for row in SLANTED for cell in row]
        self.assertRead(array.array("d", flat), SLANTED)
        self.assertRead(memoryview(array.array("d", flat)), SLANTED)
        view = memoryview(array.array("d", flat)).cast("B").cast("d", (3, 3))
        self.assertRead(view, SLANTED)
        self.assertRead(memoryview(array.array("d", flat)).cast("B").cast("@d"), SLANTED)
        self.assertRead((ctypes.c_double * 9)(*flat), SLANTED)
        self.assertRead(((ctypes.c_double * 3) * 3)(*map(tuple, SLANTED)), SLANTED)
        self.assertRead(memoryview(struct.pack("=9d", *flat)).cast("d"), SLANTED)

    def test_strided_buffers(self):
        flat = [cell for row in SLANTED for cell in row]
        spread = array.array("d", [x for cell in flat for x in (cell, 99.0)])
        self.assertRead(memoryview(spread)[::2], SLANTED)
        self.assertRead(memoryview(array.array("d", flat[::-1]))[::-1], SLANTED)

    def test_floats_are_converted(self):
        self.assertRead(array.array("f", [cell for row in SLANTED for cell in row]), SLANTED)
        self.assertRead((ctypes.c_float * 16)(*FLAT), PAIRS)

    def test_other_byte_orders_are_converted(self):
        other = ctypes.c_double.__ctype_be__ if sys.byteorder == "little" else ctypes.c_double.__ctype_le__
        book = (other * 9)(*[cell for row in SLANTED for cell in row])
        self.assertIn(memoryview(book).format[0], "<>")
        self.assertNotEqual(bytes(book), struct.pack("=9d", *book))
        self.assertRead(book, SLANTED)

    def test_other_formats_are_type_errors(self):
        for book in [array.array(kind, [1, 0, 0, 1]) for kind in "bBhHiIlLqQ"] + [
            b"1001",
            bytearray(4),
            bytes(257 * 257),
            bytes(3),
            memoryview(array.array("d", FLAT)).cast("B"),
            memoryview(bytes(4)).cast("c"),
            memoryview(bytes(4)).cast("?"),
            (ctypes.c_longdouble * 4)(1, 0, 0, 1),
            (ctypes.c_int32 * 4)(1, 0, 0, 1),
            (ctypes.py_object * 4)(1, 0, 0, 1),
            [array.array("i", [1, 0]), array.array("i", [0, 1])],
            [b"10", b"01"],
        ]:
            with self.assertRaises(TypeError, msg=repr(book)):
                onc.group_with_draws(book, [0] * 10)

    def test_shapes_of_buffers(self):
        for length in (2, 3, 5, 8, 15, 17):
            with self.assertRaises(ValueError):
                onc.group_with_draws(array.array("d", [1.0] * length), [0] * 10)
        wide = memoryview(array.array("d", FLAT)).cast("B").cast("d", (2, 8))
        self.assertRefused(2, None, onc.group_with_draws, wide, [0] * 10)
        self.assertRefused(1, None, onc.group_with_draws, wide, [0] * 10, repeat=0)
        self.assertRefused(2, None, onc.group_with_draws, array.array("d"), [0] * 10)
        self.assertRefused(2, None, onc.group_with_draws, array.array("d", [1.0]), [0] * 10)
        self.assertRefused(4, None, onc.group_with_draws, array.array("d", bytes(8 * 257 * 257)), [0] * 10)
        # No lists are made for these: theirs would take 640 GB.
        self.assertRefused(2, None, onc.group_with_draws, memoryview(bytes(800000)).cast("d", (100000, 1)), [0] * 10)
        self.assertRefused(2, None, onc.group_with_draws, [[0.5]] * 100000, [0] * 10)
        cube = memoryview(array.array("d", [1.0] * 8)).cast("B").cast("d", (2, 2, 2))
        with self.assertRaises(ValueError):
            onc.group_with_draws(cube, [0] * 10)
        with self.assertRaises(ValueError):
            onc.group_with_draws(ctypes.c_double(1), [0] * 10)
        with self.assertRaises(ValueError):
            onc.group_with_draws([wide, wide], [0] * 10)
        released = memoryview(array.array("d", FLAT))
        released.release()
        with self.assertRaises(ValueError):
            onc.group_with_draws(released, [0] * 10)

    def test_ragged_rows(self):
        for book in ([[1, 0], [0]], [[1], [0, 1]], [[1, 0, 0], [0, 1], [0, 0, 1]], [[1, 0], []], [[]] * 2 + [[1]]):
            with self.assertRaises(ValueError):
                onc.group_with_draws(book, [0] * 10)

    def test_what_is_no_book(self):
        for book in (None, 1, 1.5, "1001", ["10", "01"], [["1", "0"], ["0", "1"]], [1, 0, 0, 1], [[None, 0], [0, 1]], [[1, 0], None], {0: 1},
                     {1, 2}, object(), [[1, 0], [0, 1j]], [[b"1", 0], [0, 1]], [[memoryview(b"1"), 0], [0, 1]], iter(PAIRS), [{1, 0}, {0, 1}],
                     [[[1], [0]], [[0], [1]]]):  # fmt: skip
            with self.assertRaises(TypeError, msg=repr(book)):
                onc.group_with_draws(book, [0] * 10)
        with self.assertRaises(ValueError):
            onc.group_with_draws([[1, 10**400], [0, 1]], [0] * 10)


class Arguments(Case):
    def test_draws(self):
        expected = onc.group_with_draws(PAIRS, [0, 1] * 5)
        for draws in [(0, 1) * 5, [False, True] * 5, (ctypes.c_uint64 * 10)(*[0, 1] * 5)] + [array.array(kind, [0, 1] * 5) for kind in "hHiIlLqQ"]:
            self.assertEqual(onc.group_with_draws(PAIRS, draws), expected)
        self.assertEqual(onc.group_with_draws(PAIRS, memoryview(array.array("Q", [0, 9, 1, 9] * 5))[::2]), expected)
        self.assertEqual(onc.group_with_draws(PAIRS, [0, 1] * 5 + [2**64 - 1]), expected)
        self.assertRefused(8, 0, onc.group_with_draws, PAIRS, range(4, 20))

    def test_draws_that_are_none(self):
        for draws in ([-1] + [0] * 9, [0] * 9 + [2**64], [10**30] * 10, array.array("q", [-1] * 10), array.array("h", [0] * 9 + [-5])):
            with self.assertRaises(ValueError, msg=repr(draws)):
                onc.group_with_draws(PAIRS, draws)
        for place, draw in ((0, -1), (4, 2**64)):
            with self.assertRaisesRegex(ValueError, "draws: item {} ".format(place)):
                onc.group_with_draws(PAIRS, [0] * place + [draw] + [-2])
        self.assertRefused(8, 0, onc.group_with_draws, PAIRS, [2**63] + [0] * 9)
        with self.assertRaises(ValueError):
            onc.group_with_draws(PAIRS, memoryview(array.array("Q", [0] * 10)).cast("B").cast("Q", (2, 5)))
        for draws in (None, 0, "0" * 10, bytes(10), bytearray(10), [0.0] * 10, ["0"] * 10, [None] * 10, array.array("d", [0.0] * 10), iter([0] * 10), {0: 0}):
            with self.assertRaises(TypeError, msg=repr(draws)):
                onc.group_with_draws(PAIRS, draws)

    def test_repeat(self):
        self.assertEqual(onc.group_with_draws(PAIRS, [0] * 20, repeat=2).draws_read, 20)
        self.assertEqual(onc.group_with_draws(PAIRS, [0] * 640, repeat=64).draws_read, 640)
        for repeat in (-1, 2**64, 10**30):
            with self.assertRaises(ValueError):
                onc.group_with_draws(PAIRS, [0] * 10, repeat=repeat)
        for repeat in (1.0, "1", None):
            with self.assertRaises(TypeError):
                onc.group_with_draws(PAIRS, [0] * 10, repeat=repeat)

    def test_names(self):
        class Endless:
            def __getitem__(self, place):
                return place

        with self.assertRaises(TypeError):
            onc.group_with_draws(PAIRS, [0] * 10, names=Endless())
        for names in ([], list("ABC"), list("ABCDE"), list("ABCA"), [1, 2, 3, True]):
            with self.assertRaises(ValueError, msg=repr(names)):
                onc.group_with_draws(PAIRS, [0] * 10, names=names)
        for names in ("ABCD", b"ABCD", {"A", "B", "C", "D"}, dict.fromkeys("ABCD"), iter("ABCD"), 4, [["A"], ["B"], ["C"], ["D"]]):
            with self.assertRaises(TypeError, msg=repr(names)):
                onc.group_with_draws(PAIRS, [0] * 10, names=names)


class Averages(Case):
    EIGHT = [2, 4, 4, 4, 5, 5, 7, 9]

    def test_worked_examples(self):
        self.assertEqual(onc.mean([1, 2, 6]), 3.0)
        self.assertIsNone(onc.mean([]))
        self.assertEqual(onc.variance(self.EIGHT), 4.0)
        self.assertEqual(onc.variance(self.EIGHT, ddof=1), 32 / 7)
        self.assertIsNone(onc.variance([3.0], 1))
        self.assertEqual(onc.std_dev(self.EIGHT), 2.0)
        self.assertEqual(onc.mean([0.1] * 3), 0.1)
        self.assertEqual(bits(onc.mean([-0.0])), 1 << 63)
        self.assertTrue(math.isnan(onc.mean([1, NAN])))
        self.assertTrue(math.isnan(onc.std_dev([NAN, NAN], 1)))

    def test_none(self):
        for call in (onc.variance, onc.std_dev):
            self.assertIsNone(call([]))
            self.assertIsNone(call(self.EIGHT, 8))
            self.assertIsNone(call(self.EIGHT, 2**64 - 1))
            self.assertIsNotNone(call(self.EIGHT, 7))

    def test_values(self):
        for values in (tuple(self.EIGHT), array.array("d", self.EIGHT), array.array("f", self.EIGHT), memoryview(array.array("d", self.EIGHT[::-1]))[::-1]):
            self.assertEqual(onc.mean(values), 5.0)
        for values in (None, 3, "123", b"123", ["1"], [None], [[1.0]], array.array("q", self.EIGHT), {1.0}):
            for call in (onc.mean, onc.variance, onc.std_dev):
                with self.assertRaises(TypeError, msg=repr(values)):
                    call(values)
        for ddof, error in ((-1, ValueError), (2**64, ValueError), (1.0, TypeError), (None, TypeError)):
            for call in (onc.variance, onc.std_dev):
                with self.assertRaises(error):
                    call(self.EIGHT, ddof)

    def test_too_many_values(self):
        many = array.array("d", [0.5]) * 65537
        for call in (onc.mean, onc.variance, onc.std_dev):
            self.assertRefused(4, None, call, many)
        self.assertEqual(onc.mean(many[1:]), 0.5)


class Intake(Case):
    ONE = 1000000

    def assertImproper(self, number, row, column, cells):
        with self.assertRaises(onc.Improper) as caught:
            onc.check_book(cells)
        found = caught.exception
        self.assertEqual((found.number, found.row, found.column, found.place), (number, row, column, row * len(cells) + column))

    def changed(self, row, column, cell):
        book = [[self.ONE, 1, 2], [1, self.ONE, 3], [2, 3, self.ONE]]
        book[row][column] = cell
        return book

    def test_proper_books(self):
        self.assertIsNone(onc.check_book(self.changed(0, 0, self.ONE)))
        for kind in "ilq":
            self.assertIsNone(onc.check_book(array.array(kind, [self.ONE, -self.ONE, -self.ONE, self.ONE])))
        most = [[self.ONE if i == j else 0 for j in range(256)] for i in range(256)]
        self.assertIsNone(onc.check_book(most))
        most[255][254] = 1
        self.assertImproper(23, 254, 255, most)
        with self.assertRaises(onc.Improper):
            onc.check_book(array.array("q", [cell for row in most for cell in row]))

    def test_faults_of_cells(self):
        self.assertImproper(21, 0, 2, self.changed(0, 2, self.ONE + 1))
        self.assertImproper(21, 0, 0, self.changed(0, 0, -self.ONE - 1))
        self.assertImproper(22, 1, 1, self.changed(1, 1, self.ONE - 1))
        self.assertImproper(23, 1, 2, self.changed(1, 2, 4))
        self.assertImproper(23, 1, 2, self.changed(2, 1, 4))

    def test_cells_beyond_64_bits(self):
        for far in (2**63, -(2**63) - 1, 2**64 + 1, 10**30, -(10**30)):
            self.assertImproper(21, 0, 1, self.changed(0, 1, far))
            self.assertImproper(23, 0, 1, self.changed(1, 0, far))
        self.assertImproper(21, 0, 1, [[self.ONE, 2**64 + 5], [5, self.ONE]])
        with self.assertRaises(onc.Improper):
            onc.check_book(array.array("Q", [self.ONE, 2**64 - 1, 2**64 - 1, self.ONE]))

    def test_shapes(self):
        self.assertRefused(2, None, onc.check_book, [])
        self.assertRefused(2, None, onc.check_book, [[self.ONE]])
        self.assertRefused(2, None, onc.check_book, [[self.ONE, 0]])
        self.assertRefused(4, None, onc.check_book, [[0] * 257] * 257)
        with self.assertRaises(ValueError):
            onc.check_book([[self.ONE, 0], [0]])
        with self.assertRaises(ValueError):
            onc.check_book(array.array("q", [self.ONE] * 3))

    def test_what_is_no_book_in_millionths(self):
        for book in (PAIRS, array.array("d", FLAT), [[1.0, 0], [0, 1]], [["1", 0], [0, 1]], None, "1", b"1001", 5):
            with self.assertRaises(TypeError, msg=repr(book)):
                onc.check_book(book)


class Draws(Case):
    def test_counts(self):
        for names, count in zip(range(2, 13), (3, 3, 10, 20, 33, 49, 68, 97, 130, 167, 208)):
            self.assertEqual(onc.draws_for(names), count)
            self.assertEqual(onc.draws_for(names, 64), 64 * count)
            self.assertEqual(onc.draws_enough(names, 3), 96 * count)
        self.assertEqual((onc.draws_for(256, 64), onc.draws_enough(4)), (13723392, 320))
        for names, repeat in ((1, 1), (0, 1), (-1, 1), (257, 1), (2**64 + 4, 1), (4, 0), (4, 65), (4, -1)):
            self.assertIsNone(onc.draws_for(names, repeat))
            self.assertIsNone(onc.draws_enough(names, repeat))
        with self.assertRaises(TypeError):
            onc.draws_for(4.0)


class Errors(Case):
    def test_causes(self):
        causes = {1: "InvalidRepeat", 2: "InvalidCorrelationMatrix", 3: "ClusteringFailed", 4: "TooLarge", 5: "CellCount", 6: "ListLength",
                  7: "TooFewDraws", 8: "DrawOutOfRange", 9: "TooManyRounds", 10: "OutOfRange", 11: "Layout", 29: "GroupCount",
                  30: "InvalidGrouping"}  # fmt: skip
        for number, cause in causes.items():
            refusal = onc.Refusal(number, 5)
            self.assertEqual((refusal.number, refusal.cause), (number, cause))
            self.assertEqual(refusal.place, 5 if number in (7, 8, 10) else None)
            self.assertTrue(str(refusal).startswith("refused {}: ".format(number)))
        self.assertEqual(str(onc.Refusal(7, 12)), "refused 7: too few draws, after 12 were read")
        self.assertEqual(str(onc.Improper(23, 1, 2, 5)), "refused 23: the cell in row 1, column 2 is unlike its mirror")
        self.assertEqual([onc.Improper(number, 0, 0, 0).cause for number in (21, 22, 23)], ["Range", "Diagonal", "Mirror"])

    def test_errors_are_pickled(self):
        refusal = pickle.loads(pickle.dumps(onc.Refusal(8, 3)))
        self.assertEqual((refusal.number, refusal.place, str(refusal)), (8, 3, "refused 8: the draw at 3 is out of range"))
        improper = pickle.loads(pickle.dumps(onc.Improper(21, 0, 1, 1)))
        self.assertEqual((improper.number, improper.row, improper.column), (21, 0, 1))

    def test_a_library_that_is_not_there(self):
        code = "import onc; onc.mean([1.0])"
        environment = dict(os.environ, ONC_LIBRARY=os.path.join(HERE, "no such file.so"))
        run = subprocess.run([sys.executable, "-c", code], cwd=HERE, env=environment, stdout=subprocess.PIPE, stderr=subprocess.PIPE)
        self.assertEqual(run.returncode, 1)
        self.assertIn(b"no such file.so is not there: run bindings/build.sh, or set ONC_LIBRARY", run.stderr)


class Example(Case):
    def test_example(self):
        run = subprocess.run([sys.executable, "example.py"], cwd=HERE, stdout=subprocess.PIPE, check=True, universal_newlines=True)
        self.assertEqual(
            run.stdout.splitlines(),
            [
                "names 4 groups 2 draws 10",
                "group 0: A 0.679, B 0.679",
                "group 1: C 0.679, D 0.679",
                "refused 1: no repeats",
                "mean 5.0 variance 4.0 standard deviation 2.0",
                "refused 23: the cell in row 0, column 1 is unlike its mirror",
            ],
        )


class RandomDraws(Case):
    def out_of_range(self, book, draws, repeat, place):
        """Whether the call is refused by 8 at this place."""
        try:
            onc.group_with_draws(book, draws, repeat)
        except onc.Refusal as refusal:
            return (refusal.number, refusal.place) == (8, place)
        return False

    def test_which_draws_are_indexes(self):
        """2**53 - 1 is in range as a share and not as an index, at every place of a first round."""
        rng = random.Random(7)
        for n in range(2, 8):
            book = [[1.0 if i == j else rng.uniform(-1, 1) for j in range(n)] for i in range(n)]
            for repeat in (1, 2):
                draws = random_draws.first_round(n, repeat, rng)
                self.assertEqual(len(draws), onc.draws_for(n, repeat))
                for place, made in enumerate(draws):
                    found = [self.out_of_range(book, draws[:place] + [draw] + draws[place + 1 :], repeat, place) for draw in (made, 2**53 - 1, 2**53)]
                    self.assertEqual(found, [False, made < n, True])

    def test_group(self):
        found = random_draws.group(PAIRS, random.Random(1), names=["A", "B", "C", "D"])
        self.assertEqual(sorted(found.groups), [["A", "B"], ["C", "D"]])
        self.assertRefused(9, None, random_draws.group, ENDLESS, random.Random(1))
        self.assertRefused(1, None, random_draws.group, PAIRS, random.Random(1), 0)
        self.assertRefused(2, None, random_draws.group, [[1.0]], random.Random(1))


if __name__ == "__main__":
    unittest.main()
