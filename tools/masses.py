#!/usr/bin/env python3
"""Requests of `ask` for the mass of a frame, one to a line, for a comparison with the model:

    masses.py fixed             the surfaces that tell the sequence of 02 from one that is near it, and what is refused
    masses.py drawn N [SEED]    the fixed ones, then N requests: surfaces with degrees left out, in any order, damaged or with a table
                                of another family or alphabet, and readings of every kind

    tools/masses.py drawn 100000 | tee target/requests | ./ask >target/answers
    tools/model.py ask <target/requests | cmp - target/answers

A NaN that `join` gives back may be any NaN; those that are drawn are the one that Python writes, so the answers can be compared as text.
"""
import random
import sys

sys.dont_write_bytecode = True
from images import damaged, hexed, image  # noqa: E402
from model import MASSES, asked_mass, spelled, surface  # noqa: E402

INF, NAN, LARGEST, SMALLEST, TINY = "7ff0000000000000", "7ff8000000000000", "7fefffffffffffff", "0000000000000001", "000fffffffffffff"
ONE, MINUS_ZERO, MINUS_INF = "3ff0000000000000", "8000000000000000", "fff0000000000000"
TOP = 2**64 - 1


def fixed():
    for tables, p, t, _, _ in MASSES:
        print(asked_mass(tables, p, t))
        print(asked_mass(dict(reversed(tables.items())), p, t, (TOP, TOP)))
        print(asked_mass(tables, t, p))
    constant = hexed(surface({0: [1.0]}))
    for p in (ONE, INF, MINUS_INF, NAN, LARGEST, SMALLEST, TINY, MINUS_ZERO):
        for t in (ONE, INF, NAN, MINUS_ZERO):
            print("join", 4, p, 4, t)
            print("join", 4, p, 5, t)
            for b in (constant, "-", hexed(image([(0, 0, 2)])), hexed(image([(1, 0, 2), (1, 1, 3)])), hexed(surface({1: [2.0, -3.0]})), hexed(surface({0: [-0.0]}))):
                print("mass", b, 4, p, 4, t)
    for frames in ((0, 0), (0, TOP), (TOP, 0), (TOP, TOP), (1, 2)):
        print("mass", constant, frames[0], NAN, frames[1], ONE)
        print("mass -", frames[0], NAN, frames[1], ONE)
        print("join", frames[0], ONE, frames[1], SMALLEST)
    for words in ("join", "join 1", f"join 1 {ONE} 1", f"join 1 {ONE} 1 {ONE} 1", f"join 1 {ONE.upper()} 1 {ONE}", f"join 1 {ONE[1:]} 1 {ONE}",
                  f"join 1 {ONE}0 1 {ONE}", f"join 01 {ONE} 1 {ONE}", f"join 1  1 {ONE}", f"mass {constant} 1 {ONE} 1", f"mass {constant[1:]} 1 {ONE} 1 {ONE}",
                  f"mass 1 {ONE} 1 {ONE}", f"room 0 mass {constant} 1 {ONE} 1 {ONE}", f"room 9 join 1 {ONE} 1 {ONE}"):
        print(words)


def bits(r):
    """The digits of a double: mostly a reading, sometimes one at the ends of what a double is."""
    how = r.randrange(16)
    if how < 9:
        return spelled(r.choice((r.uniform(-2, 2), r.uniform(0, 400), r.gauss(0, 1) * 10 ** r.randrange(-6, 7), float(r.randrange(-9, 10)))))
    if how < 11:
        return spelled(r.choice((-1, 1)) * 2.0 ** r.randrange(-1074, 1024))
    if how == 11:
        return f"{r.getrandbits(52) >> r.randrange(52) | r.getrandbits(1) << 63:016x}"
    if how == 12:
        return r.choice((INF, MINUS_INF, NAN, LARGEST, SMALLEST, TINY, MINUS_ZERO, "0000000000000000", "0010000000000000"))
    if how == 13:
        return f"{r.choice((0x3ff, 0x3fe, 0x400, 0x001, 0x000, 0x7fe)) << 52 | r.getrandbits(52) | r.getrandbits(1) << 63:016x}"
    return spelled(r.uniform(0.5, 1.5))


def drawn_surface(r):
    """The bytes of a surface whose degrees are any, in any order; its coefficients are mostly finite."""
    most = r.choice((3, 6, 6, 12, 64))
    degrees = r.sample(range(most), r.choice((1, min(2, most), r.randint(1, most), r.randint(1, min(most, 6)))))
    tables = [(1, k, 2) for k in degrees]
    if r.random() < 0.08:
        tables[r.randrange(len(tables))] = r.choice(((0, 0, 2), (0, 1, 2), (0, 2, 2), (1, 0, 3), (1, 1, 3), (1, 2, 1), (1, 63, 1)))
    tables = [t for i, t in enumerate(tables) if t[:2] not in [u[:2] for u in tables[:i]]]
    odd = r.random() < 0.15
    return image(tables, lambda place: int(bits(r) if odd else spelled(r.uniform(-2, 2)), 16)), len(tables)


def drawn(many, seed):
    r = random.Random(seed)
    for _ in range(many):
        frame = r.choice((r.randrange(10), r.getrandbits(32), r.getrandbits(64), TOP))
        other = frame if r.random() < 0.93 else r.choice((frame ^ 1, r.getrandbits(64)))
        readings = bits(r), bits(r)
        if r.random() < 0.05:
            print("join", frame, readings[0], other, readings[1])
            continue
        b, tables = drawn_surface(r)
        if r.random() < 0.08:
            b = damaged(r, b, 4 + 12 * tables)
        print("mass", hexed(b), frame, readings[0], other, readings[1])


def main():
    words = sys.argv[1:]
    if words in (["-h"], ["--help"]):
        return print(__doc__.strip())
    if words == ["fixed"]:
        return fixed()
    if len(words) in (2, 3) and words[0] == "drawn" and all(w.isdecimal() for w in words[1:]):
        fixed()
        return drawn(int(words[1]), int((words + ["1"])[2]))
    print(__doc__.strip(), file=sys.stderr)
    sys.exit(2)


if __name__ == "__main__":
    main()
