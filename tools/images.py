#!/usr/bin/env python3
"""Requests of `ask` about images of coefficient tables, one to a line, for a comparison with the model:

    images.py all               of several images every truncation, every value of each byte of the contents list, every cut in two and in three, of a
                                longer one in three at its first 100 bytes, its last 8 and every 24th
    images.py drawn N [SEED]    N requests about images that are good, damaged, cut or made up

    tools/images.py drawn 100000 | tee target/requests | ./ask >target/answers
    tools/model.py ask <target/requests | cmp - target/answers
"""
import itertools
import random
import sys

sys.dont_write_bytecode = True
from model import MOST_BYTES, MOST_TABLES, NAMES, Refused, count  # noqa: E402


def image(tables, body=lambda place: place):
    """The good image with these tables, each a family, a degree and an alphabet; the entry at a place of the image is body(place)."""
    contents, bodies, end = len(tables).to_bytes(4, "little"), [], 4 + 12 * len(tables)
    for family, k, n in tables:
        entries = count(NAMES[family], n, k)
        contents += bytes([family, k, n, 0]) + end.to_bytes(4, "little") + entries.to_bytes(4, "little")
        for _ in range(entries):
            bodies.append((body(end) % 2**64).to_bytes(8, "little"))
            end += 8
    return contents + b"".join(bodies)


# The smallest image, one table of a degree, one of each family, a surface over two quantities, one degree in both families, the widest alphabets.
SEVERAL = [
    [(0, 0, 0)],
    [(1, 1, 2)],
    [(0, 2, 4), (1, 0, 7)],
    [(1, 0, 2), (1, 1, 2), (1, 2, 2)],
    [(0, 1, 3), (1, 1, 2)],
    [(0, 64, 64), (1, 64, 1), (1, 63, 2)],
]

# It ends at the last byte that an image may have.
WHOLE = [(0, 6, 16), (0, 2, 19), (0, 1, 8)]


def asked(*words):
    print(*words)


def hexed(b):
    return b.hex() or "-"


def everything():
    for tables in SEVERAL:
        whole = image(tables)
        for end in range(len(whole) + 1):
            asked("imagecheck", hexed(whole[:end]))
        for at, value in itertools.product(range(min(len(whole), 4 + 12 * len(tables) + 1)), range(256)):
            asked("imagecheck", hexed(whole[:at] + bytes([value]) + whole[at + 1:]))
        for extra in ("00", "ff"):
            asked("imagecheck", hexed(whole) + extra)
            asked("imagewrite", hexed(whole), extra)
        for i in range(len(whole) + 1):
            asked("imagewrite", hexed(whole[:i]), hexed(whole[i:]))
            for part in ((), ("end",), ("00",), ("end", "00")):
                asked("pieces", hexed(whole[:i]), hexed(whole[i:]), *part)
        places = [i for i in range(len(whole) + 1) if i <= 100 or i % 24 == 0 or len(whole) - i <= 8]
        for i, j in itertools.combinations_with_replacement(places, 2):
            asked("pieces", hexed(whole[:i]), hexed(whole[i:j]), hexed(whole[j:]), "end")
    whole = image(WHOLE)
    for b in (whole, whole[:-1], whole + b"\0", image(WHOLE + [(0, 0, 0)])):
        asked("imagecheck", hexed(b))
        asked("imagewrite", hexed(b[:40]), hexed(b[40:]))
        asked("pieces", *(hexed(b[i:i + 223]) for i in range(0, len(b), 223)), "end")


# ---- drawn at random

def drawn_tables(r):
    """Tables that mostly stand in a good image: no family and degree twice, a count that is not 0, all of it below the wall."""
    tables, end, many = [], 4, r.choice((1, 1, 2, 3, r.randint(4, 12), r.randint(1, MOST_TABLES)))
    for _ in range(400):
        family, k = r.randrange(2), r.choice((r.randrange(5), r.randrange(5), r.randrange(65)))
        n = r.choice((r.randrange(6), r.randrange(6), r.randrange(65), 65 - k if family and k else 64))
        if any(t[:2] == (family, k) for t in tables):
            continue
        try:
            words = count(NAMES[family], n, k)
        except Refused:
            continue
        if words and words <= r.choice((8, 40, 2000)) and end + 12 + 8 * words <= MOST_BYTES:
            tables.append((family, k, n))
            end += 12 + 8 * words
        if len(tables) == many:
            break
    return tables


def number(r):
    return r.choice((r.randrange(8), r.randrange(70), r.randrange(256), 2**r.randrange(33) - r.randrange(2), r.getrandbits(32)))


def damaged(r, b, contents):
    """The image with a field or byte changed, cut, lengthened or joined from two places, sometimes twice."""
    for _ in range(r.choice((0, 1, 1, 1, 2, 3))):
        at = r.randrange(contents) if r.random() < 0.8 else r.randrange(len(b) + 1)
        how = r.randrange(8)
        if how == 0:
            b = b[:at]
        elif how == 1:
            b += bytes(r.choice((0, r.randrange(256))) for _ in range(r.randint(1, 9)))
        elif how == 2:
            b = b[:at] + bytes([r.randrange(256)]) + b[at + 1:]
        elif how == 3:
            b = b[:at] + bytes([b[at] ^ 1 << r.randrange(8)] if at < len(b) else []) + b[at + 1:]
        elif how == 4:
            row = 4 + 12 * r.randrange(64)
            at = row + r.choice((4, 8))
            b = b[:at] + (number(r) % 2**32).to_bytes(4, "little") + b[at + 4:]
        elif how == 5:
            row, at = 4 + 12 * r.randrange(64), r.choice((0, 1, 2, 3))
            b = b[:row + at] + bytes([number(r) % 256]) + b[row + at + 1:]
        elif how == 6:
            b = (number(r) % 2**32).to_bytes(4, "little") + b[4:]
        else:
            b = b[:at] + b[at + r.randint(1, 12):]
    return b


def index(r, tables):
    """An index: mostly a word of a degree that a table has."""
    family, k, n = r.choice(tables) if tables and r.random() < 0.9 else (r.randrange(2), r.randrange(5), r.randrange(6))
    n = r.choice((n, n, n + 1, n + r.randrange(6), max(0, n - 1), number(r)))
    wide = n + k - 1 if family and k else n
    bits = sum(1 << s for s in r.sample(range(wide), k)) if k <= wide <= 64 else r.getrandbits(64)
    return NAMES[family], n, r.choice((bits, bits, bits, bits, r.getrandbits(64)))


def cut(r, b):
    """Pieces of an image: any number of them, empty ones too, the end announced or not, in time or early."""
    many = r.choice((0, 1, 2, r.randrange(8), r.randrange(40)))
    places = [0] + sorted(r.randrange(len(b) + 1) for _ in range(many)) + [len(b)]
    parts = [hexed(b[i:j]) for i, j in zip(places, places[1:])]
    if r.random() < 0.8:
        parts.insert(len(parts) if r.random() < 0.7 else r.randrange(len(parts) + 1), "end")
    if r.random() < 0.2:
        parts += r.choice((["end"], ["00"], ["-"], ["00", "end"]))
    return parts


def drawn(many, seed):
    r = random.Random(seed)
    for drawn_so_far in range(many):
        if drawn_so_far % 8 == 0:  # eight requests about one image, which takes longer to draw than to damage
            tables = drawn_tables(r)
            plain, full = image(tables), image(tables, lambda place: r.getrandbits(64))
        b = damaged(r, full, 4 + 12 * len(tables)) if r.random() < 0.7 else plain
        family, k = r.choice(tables)[:2] if tables and r.random() < 0.8 else (r.randrange(2), number(r))
        place = r.choice((0, 0, 0, 4, number(r)))
        i = r.choice((4 + 12 * len(tables), r.randrange(len(b) + 1)))
        words = r.choice((
            ("imagecheck", hexed(b)),
            ("imagerow", hexed(b), NAMES[family], k),
            ("imagelookup", hexed(b), *index(r, tables)),
            ("imagelookup", hexed(b), *index(r, tables)),
            ("imagewrite", hexed(b[:i]), hexed(b[i:])),
            ("room", r.choice((len(b), max(0, len(b) - 1), len(b) + 1, 0, 2**64 - 1)), "imagewrite", hexed(b[:i]), hexed(b[i:])),
            ("recordcheck", place, hexed(b)),
            ("recordrow", place, hexed(b), NAMES[family], k),
            ("recordlookup", place, hexed(b), *index(r, tables)),
            ("pieces", *cut(r, b)),
            ("pieces", *cut(r, b)),
        ))
        asked(*words)


def main():
    words = sys.argv[1:]
    if words in (["-h"], ["--help"]):
        return print(__doc__.strip())
    if words == ["all"]:
        return everything()
    if len(words) in (2, 3) and words[0] == "drawn" and all(w.isdecimal() for w in words[1:]):
        return drawn(int(words[1]), int((words + ["1"])[2]))
    print(__doc__.strip(), file=sys.stderr)
    sys.exit(2)


if __name__ == "__main__":
    main()
