#!/usr/bin/env python3
"""Requests of `ask` about the wide index, one to a line, for a comparison with the model:

    wide.py fixed               the readings of 02 with their neighbours, and every small input
    wide.py drawn N [SEED]      those, and N requests that are drawn: around the seam, at counts and ranks near 2^64, at the degrees of which all words
                                have a rank, and any

    tools/wide.py drawn 100000 | tee target/requests | ./ask >target/answers
    tools/model.py ask <target/requests | cmp - target/answers
"""
import itertools
import random
import sys
from math import comb

sys.dont_write_bytecode = True
from model import NAMES, WIDE, WIDES, halves, wide_greatest, wide_set, wide_word  # noqa: E402

TOP = 2**64 - 1
SEAM = [61, 62, 63, 64, 65, 66]


def asked(*words):
    print(*words)


def index(family, symbols):
    """An index as it is written, of a set of shifted symbols."""
    return (family, *halves("forbidden", sorted(symbols)))


# ---- the readings and all that is small

def of_index(family, symbols):
    """Every request on one index; of many positions those at the ends and on both sides of the seam."""
    x, k, below = index(family, symbols), len(symbols), sum(s < 64 for s in symbols)
    asked("widerankof", *x)
    asked("widenext", *x)
    asked("widerank", family, *wide_word(family, sorted(symbols)))
    for p in sorted({0, 1, max(0, below - 1), below, max(0, k - 1), k}):
        asked("widedelete", *x, p)


def fixed():
    for line, _ in WIDES:
        asked(line)
    for family in NAMES:
        for n, k in itertools.product(range(6), range(6)):
            asked("widecount", family, n, k)
            for r in range(comb(n + k, k) + 1):
                asked("wideunrank", family, n, k, r)
                asked("wideunrankover", family, n, k, r)
        for n, k in itertools.product(range(126, 131), (0, 1, 2, 14, 15, 16, 17, 111, 112, 113, 114, 127, 128, 129, TOP)):
            for at in (n, max(0, n - k), max(0, n + 1 - k)):
                asked("widecount", family, at, k)
                asked("wideunrankover", family, at, k, 0)
        for n in range(65, WIDE + 1):
            k = max(k for k in range(n // 2 + 1) if comb(n, k) <= TOP)
            for j in (k, k + 1, n - k, n - k - 1):
                m = n if family == "forbidden" else n + 1 - j
                for r in (0, comb(n, j) - 1, comb(n, j), TOP):
                    asked("widecount", family, m, j)
                    asked("wideunrank", family, m, j, min(r, TOP))
        for k, r in itertools.product(range(WIDE + 2), (0, 1, TOP)):
            asked("wideunrankany", family, k, r)
        for many in range(len(SEAM) + 1):
            for symbols in itertools.combinations(SEAM, many):
                of_index(family, symbols)
                for others in itertools.combinations(SEAM, min(many, 2)):
                    asked("widemerge", *index(family, symbols), *index(family, others))
        for k in range(1, WIDE + 1):
            # From the first of the highest bits to the last, and the words just around the rank that is too big.
            for symbols in (range(WIDE - k, WIDE), range(64 - k // 2, 64 - k // 2 + k), [*range(k - 1), WIDE - 1]):
                asked("widenext", *index(family, symbols))
                asked("widerankof", *index(family, symbols))
            for r in (TOP - 1, TOP, TOP + 1):
                if r < comb(WIDE, k):
                    of_index(family, wide_greatest(k, r))


# ---- drawn at random

def some_degree(r):
    return r.choice((r.randrange(5), r.randrange(16), r.randrange(113, WIDE + 1), r.randrange(WIDE + 1), r.randrange(20, 50)))


def some_set(r):
    """A set of shifted symbols: few or many, low, high or on both sides of the seam, or near a rank that is just too big."""
    k, how = some_degree(r), r.randrange(9)
    if how == 0:
        return r.sample(SEAM, r.randrange(len(SEAM) + 1))
    if how == 1:
        return r.sample(range(56, 72), min(k, 16))
    if how == 2:
        return r.sample(range(64), min(k, 64))
    if how == 3:
        return [64 + s for s in r.sample(range(64), min(k, 64))]
    if how == 4:
        at = r.randrange(WIDE)
        return list(range(max(0, at - k), at))
    if how == 5:
        gone = r.sample(range(WIDE), r.randrange(4))
        return [s for s in range(WIDE - k, WIDE) if s not in gone]
    if how == 6 and comb(WIDE, k) > TOP:
        return wide_greatest(k, TOP + r.choice((-1, 0, 1, r.randrange(-9, 9))))
    if how == 7 and k:
        top = r.randrange(k, WIDE + 1)
        return r.sample(range(top), k)
    return r.sample(range(WIDE), k)


def some_number(r):
    return r.choice((r.randrange(7), r.randrange(131), r.randrange(60, 70), 2**r.randrange(65) - r.randrange(2) & TOP, r.getrandbits(64)))


def some_space(r):
    """A family, an alphabet and a degree: mostly with a count below 2^64, often the last that is or the first that is not."""
    family, how = r.choice(NAMES), r.randrange(8)
    if how == 0:
        return family, some_number(r), some_number(r)
    k = some_degree(r)
    n = r.randrange(k, WIDE + 1) if r.random() < 0.9 else r.randrange(WIDE + 2)
    if how < 4:
        while n > k and comb(n, k) > TOP:
            n -= 1
        n += r.choice((0, 0, 1))
    return family, n if family == "forbidden" or k == 0 else max(0, n + 1 - k), k


def some_rank(r, family, n, k):
    alphabet = n if family == "forbidden" or k == 0 else n + k - 1
    words = comb(alphabet, k) if alphabet <= 2 * WIDE and k <= 2 * WIDE else 0
    if words == 0 or r.random() < 0.1:
        return some_number(r)
    return min(TOP, r.choice((r.randrange(words), r.randrange(words), r.randrange(words), words - 1, words, 0)))


def some_word(r, family):
    """A word of the family, or that with one symbol changed, or any numbers; up to one more than a line takes."""
    word = wide_word(family, sorted(some_set(r)))
    if word and r.random() < 0.3:
        word[r.randrange(len(word))] = r.choice((r.choice(word), some_number(r)))
    if r.random() < 0.05:
        word = [0] * r.randrange(126, 142) if r.random() < 0.5 else [some_number(r) for _ in range(r.randrange(6))]
    if word and r.random() < 0.1:
        word[-1] += r.randrange(4)
    return word


def one(r):
    family = r.choice(NAMES)
    space = some_space(r)
    x = index(family, some_set(r))
    low = sorted(some_set(r))
    apart = index(family, [s for s in low if s not in wide_set(*x[1:])])
    few = index(r.choice(NAMES) if r.random() < 0.1 else family, r.sample(low, min(len(low), r.randrange(6))))
    return r.choice((
        lambda: ("widecount", *space),
        lambda: ("widerank", family, *some_word(r, family)),
        lambda: ("widerankof", *x),
        lambda: ("wideunrank", *space, some_rank(r, *space)),
        lambda: ("room", r.choice((space[2], max(0, space[2] - 1), some_number(r))), "wideunrank", *space, some_rank(r, *space)),
        lambda: ("wideunrankover", *space, some_rank(r, *space)),
        lambda: ("wideunrankany", family, space[2], some_rank(r, "forbidden", WIDE, space[2])),
        lambda: ("widenext", *x),
        lambda: ("widemerge", *x, *apart),
        lambda: ("widemerge", *x, *few),
        lambda: ("widedelete", *x, r.choice((r.randrange(WIDE + 1), some_number(r), len(wide_set(*x[1:])), 0))),
    ))()


def drawn(many, seed):
    fixed()
    r = random.Random(seed)
    for _ in range(many):
        asked(*one(r))


def main():
    words = sys.argv[1:]
    if words in (["-h"], ["--help"]):
        return print(__doc__.strip())
    if words == ["fixed"]:
        return fixed()
    if len(words) in (2, 3) and words[0] == "drawn" and all(w.isdecimal() for w in words[1:]):
        return drawn(int(words[1]), int((words + ["1"])[2]))
    print(__doc__.strip(), file=sys.stderr)
    sys.exit(2)


if __name__ == "__main__":
    main()
