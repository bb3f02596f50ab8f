"""Groups a book with draws of any random source, and shows why they are made so. Without such a source, onc.group by a seed is enough.

A draw is an index, below the names of its round, or a share, below 2**53. Where the indexes of the first round stand is known beforehand. How many names a later
round has shows during a run, and so does where indexes stand for shares: there a refusal by 8 names the place of a share that is read as an index, and a refusal by
7 says that one more round starts, which reads no more draws than the first. Each refusal starts the run again, so this takes long where a later round has many
names and repeats. As a program it counts for how many of 100 seeds five equal blocks are found, by these draws, by random numbers below the number of names, and by
zeros:

    PYTHONPATH=bindings/python python3 bindings/python/random_draws.py
"""

import random

import onc


def first_round(n, repeat, rng):
    """The draws of a first round of n names: for each repeat and each number of groups an index and, behind it, shares."""
    count = onc.draws_for(n)
    draws = [rng.randrange(2**53) for _ in range(repeat * count)]
    for start in range(0, repeat * count, count):
        for k in range(2, max(n, 3)):
            draws[start + (onc.draws_for(k) if k > 2 else 0)] = rng.randrange(n)
    return draws


def group(book, rng, repeat=1, names=None):
    """The grouping of a book, a list of rows, with draws of this random source."""
    n = len(book)
    draws = first_round(n, repeat, rng) if onc.draws_for(n, repeat) else []
    while True:
        try:
            return onc.group_with_draws(book, draws, repeat, names)
        except onc.Refusal as refusal:
            if refusal.number == 7:
                draws += [rng.randrange(2**53) for _ in range(onc.draws_for(n, repeat))]
            elif refusal.number == 8:
                draws[refusal.place] = rng.randrange(n)
            else:
                raise


def main():
    size, count = 6, 5
    n = size * count
    book = [[1.0 if i == j else 0.75 if i // size == j // size else 0.125 for j in range(n)] for i in range(n)]
    blocks = [list(range(i, i + size)) for i in range(0, n, size)]

    def found(call):
        """Whether the call gives the five blocks; a refusal does not."""
        try:
            return sorted(sorted(members) for members in call().groups) == blocks
        except onc.Refusal:
            return False

    def times(call):
        return sum(found(lambda: call(random.Random(seed))) for seed in range(100))

    enough = onc.draws_enough(n)
    print("indexes and shares: {} of 100".format(times(lambda rng: group(book, rng))))
    print("numbers below {}: {} of 100".format(n, times(lambda rng: onc.group_with_draws(book, [rng.randrange(n) for _ in range(enough)]))))
    print("zeros: {}".format("found" if found(lambda: onc.group_with_draws(book, [0] * enough)) else "not found"))


if __name__ == "__main__":
    main()
