#!/usr/bin/env python3
"""An independent model of document 01 as document 02 amends it, written from the documents alone. It answers what the programs answer:

    model.py terms < crates/terms_cases/stdin    what 01's program writes for each line of the input
    model.py ask < crates/ask/stdin              the answer of `ask` to each line of the input
    model.py test                                compares the model with words listed one by one, where there are few
"""
import functools
import itertools
import re
import struct
import sys
from math import comb, factorial, isfinite, prod

MAX_LINE, MAX_LIST, MAX_WIDE = 262144, 80, 140
TOO_WIDE, NOT_MONOTONE, NO_SUCH_RANK, LAST, REPEATED = 1, 2, 3, 4, 5
FAMILY_DIFFERS, OUTSIDE, SHAPE, TOO_BIG, NOT_A_PERMUTATION = 6, 7, 8, 9, 10
BAD_IMAGE, NO_SUCH_TABLE, FRAMES_DIFFER, NOT_FINITE = 11, 12, 13, 14


class Refused(Exception):
    """A refusal by its number and, for 2 and 11, the place that it carries; that of a mass or a join names a frame."""

    frame = None

    def __str__(self):
        return " at ".join(map(str, self.args)) + ("" if self.frame is None else f" frame {self.frame}")


def refuse_if(test, number, *place):
    if test:
        raise Refused(number, *place)


# ---- words, ranks and indices

def shift(family, i):
    return i if family == "allowed" else 0


def shifted_alphabet(family, n, k):
    return n + k - 1 if family == "allowed" and k > 0 else n


def count(family, n, k):
    refuse_if(k > 64 or shifted_alphabet(family, n, k) > 64, TOO_WIDE)
    return comb(shifted_alphabet(family, n, k), k)


def set_of(bits):
    return [s for s in range(64) if bits >> s & 1]


def bits_of(symbols):
    return sum(1 << s for s in symbols)


def rank_of_set(symbols):
    return sum(comb(s, i + 1) for i, s in enumerate(symbols))


def set_of_rank(k, r):
    symbols = []
    for i in range(k, 0, -1):
        s = max(s for s in range(64) if comb(s, i) <= r)
        r -= comb(s, i)
        symbols.insert(0, s)
    return symbols


def word_of(family, bits):
    return [s - shift(family, i) for i, s in enumerate(set_of(bits))]


# ---- indices: a family, an alphabet n and bits

def taken(*indices):
    """Refuses unless each record holds a word over the alphabet that it names, of a shifted alphabet that fits."""
    refuse_if(any(shifted_alphabet(f, n, len(set_of(bits))) > 64 for f, n, bits in indices), TOO_WIDE)
    refuse_if(any(s >= n for f, n, bits in indices for s in word_of(f, bits)), OUTSIDE)


def unrank_over(family, n, k, r):
    refuse_if(r >= count(family, n, k), NO_SUCH_RANK)
    return [n, bits_of(set_of_rank(k, r))]


def unrank_any(family, k, r):
    refuse_if(k > 64, TOO_WIDE)
    return unrank_over(family, 64 if family == "forbidden" or k == 0 else 65 - k, k, r)


def unrank(room, family, n, k, r):
    return lend(room, word_of(family, unrank_over(family, n, k, r)[1]))


def fits(family, n, k):
    """The first check of a word that is given with an alphabet."""
    refuse_if(k > 64 or shifted_alphabet(family, n, k) > 64, TOO_WIDE)


def packed(family, word):
    refuse_if(len(word) > 64, TOO_WIDE)
    for p in range(1, len(word)):
        refuse_if(word[p] < word[p - 1] or family == "forbidden" and word[p] == word[p - 1], NOT_MONOTONE, p)
    shifted = [x + shift(family, i) for i, x in enumerate(word)]
    refuse_if(word and shifted[-1] > 63, TOO_WIDE)
    return bits_of(shifted)


def pack(family, n, word):
    fits(family, n, len(word))
    bits = packed(family, word)
    refuse_if(any(s >= n for s in word), OUTSIDE)
    return [n, bits]


def rank(family, word):
    return rank_of_set(set_of(packed(family, word)))


def rank_of(x):
    taken(x)
    return rank_of_set(set_of(x[2]))


def degree(x):
    taken(x)
    return len(set_of(x[2]))


def unpack(room, x):
    taken(x)
    return lend(room, word_of(x[0], x[2]))


def successor(x):
    family, n, bits = x
    k, r = degree(x), rank_of(x) + 1
    refuse_if(r >= count(family, n, k), LAST)
    return [n, bits_of(set_of_rank(k, r))]


def symbol(x, p):
    taken(x)
    word = word_of(x[0], x[2])
    refuse_if(p >= len(word), OUTSIDE)
    return word[p]


def walk(family, n, k, s):
    refuse_if(s > count(family, n, k), LAST)
    return unrank_over(family, n, k, s - 1)


def step(x, remaining):
    taken(x)
    refuse_if(remaining == 0, LAST)
    try:
        after = ["here"] + successor(x)
    except Refused:
        after = ["nowhere"]
    return [*x[1:], *after, remaining - 1]


# ---- signs: a word with the sign of its inversions

def sign_of(word):
    inversions = sum(x > y for x, y in itertools.combinations(word, 2))
    return "-" if inversions % 2 else "+"


def sorted_term(family, word):
    """The sign of a word in any order, and the word sorted, unless a symbol stands twice where none may."""
    refuse_if(family == "forbidden" and len(set(word)) < len(word), REPEATED)
    return sign_of(word) if family == "forbidden" else "+", sorted(word)


def canonical(family, n, word):
    fits(family, n, len(word))
    sign, word = sorted_term(family, word)
    return [sign, *pack(family, n, word)]


def merge(x, y):
    taken(x, y)
    refuse_if(x[0] != y[0], FAMILY_DIFFERS)
    family, n = x[0], max(x[1], y[1])
    sign, word = sorted_term(family, word_of(family, x[2]) + word_of(family, y[2]))
    refuse_if(shifted_alphabet(family, n, len(word)) > 64, TOO_WIDE)
    return [sign, *pack(family, n, word)]


def delete(x, p):
    family, n, bits = x
    deleted, word = symbol(x, p), word_of(family, bits)
    left = word[:p] + word[p + 1:]
    return [sign_of([deleted] + left) if family == "forbidden" else "+", deleted, *pack(family, n, left)]


def complement(x, n):
    taken(x)
    refuse_if(x[0] == "allowed", FAMILY_DIFFERS)
    refuse_if(n > 64, TOO_WIDE)
    word = set_of(x[2])
    refuse_if(any(s >= n for s in word), OUTSIDE)
    rest = [s for s in range(n) if s not in word]
    return [sign_of(word + rest), n, bits_of(rest)]


def fitting(n):
    refuse_if(n >= 2**64, TOO_BIG)
    return n


def stabilizer(x):
    taken(x)
    word = word_of(x[0], x[2])
    return fitting(prod(factorial(word.count(s)) for s in set(word)))


# ---- sets

def insert(bits, s):
    refuse_if(s > 63, OUTSIDE)
    refuse_if(s in set_of(bits), REPEATED)
    return bits_of(set_of(bits) + [s])


def position(bits, s):
    refuse_if(s not in set_of(bits), OUTSIDE)
    return set_of(bits).index(s)


def select(bits, positions):
    symbols = set_of(bits)
    refuse_if(any(p >= len(symbols) for p in set_of(positions)), OUTSIDE)
    return bits_of(symbols[p] for p in set_of(positions))


# ---- permutations

# A record is its length and its 64 entries. A list longer than that is a record of that length.

PLACES = 64


def record(length, entries):
    return length, (entries + [0] * PLACES)[:PLACES]


def permutation(*records, longest=PLACES):
    """The lists that the records are; of one record the list alone."""
    refuse_if(any(n > longest for n, _ in records), TOO_WIDE)
    refuse_if(len({n for n, _ in records}) > 1, SHAPE)
    refuse_if(any(sorted(e[:n]) != list(range(n)) or any(e[n:]) for n, e in records), NOT_A_PERMUTATION)
    lists = [e[:n] for n, e in records]
    return lists if len(lists) > 1 else lists[0]


def perm_rank(x):
    p = permutation(x, longest=20)
    return sum(factorial(j) * sum(x < p[j] for x in p[:j]) for j in range(len(p)))


def perm_unrank(n, r):
    refuse_if(n > 20, TOO_WIDE)
    refuse_if(r >= factorial(n), NO_SUCH_RANK)
    left, p = list(range(n)), []
    for j in reversed(range(n)):
        d, r = divmod(r, factorial(j))
        p.insert(0, left.pop(d))
    return p


def perm_next(x):
    r = perm_rank(x) + 1
    refuse_if(r == factorial(x[0]), LAST)
    return perm_unrank(x[0], r)


def perm_image(x, i):
    p = permutation(x)
    refuse_if(i >= len(p), OUTSIDE)
    return p[i]


def perm_sign(x):
    return sign_of(permutation(x))


def perm_inverse(x):
    p = permutation(x)
    return [p.index(i) for i in range(len(p))]


def perm_compose(x, y):
    p, q = permutation(x, y)
    return [p[i] for i in q]


# ---- shapes

def shape(radices):
    refuse_if(len(radices) > 16, TOO_WIDE)


def lend(room, values):
    refuse_if(len(values) > room, SHAPE)
    return values


def exact_strides(radices):
    return [prod(radices[:i]) for i in range(len(radices))]


def shape_count(radices):
    shape(radices)
    return fitting(prod(radices))


def strides(room, radices):
    shape(radices)
    for stride in exact_strides(radices):
        fitting(stride)
    return lend(room, exact_strides(radices))


def linearize(radices, digits):
    shape(radices)
    refuse_if(len(radices) != len(digits), SHAPE)
    refuse_if(any(d >= r for r, d in zip(radices, digits)), OUTSIDE)
    fitting(prod(radices))
    return sum(s * d for s, d in zip(exact_strides(radices), digits))


def delinearize(room, x, radices):
    refuse_if(x >= shape_count(radices), NO_SUCH_RANK)
    return lend(room, [x // s % r for s, r in zip(exact_strides(radices), radices)])


def corner(axes, radices):
    shape(radices)
    refuse_if(any(a >= len(radices) for a in set_of(axes)), OUTSIDE)
    return fitting(sum(exact_strides(radices)[a] for a in set_of(axes)))


# ---- digit words

def digit_count(radix, degree):
    refuse_if(degree > 64, TOO_WIDE)
    return fitting(radix**degree)


def digits_of(radix, degree, rank):
    refuse_if(rank >= digit_count(radix, degree), NO_SUCH_RANK)
    return [rank // radix**p % radix for p in range(degree)]


def digit_word(radix, symbols):
    refuse_if(len(symbols) > 64, TOO_WIDE)
    refuse_if(any(s >= radix for s in symbols), OUTSIDE)
    digit_count(radix, len(symbols))
    return [len(symbols), sum(s * radix**p for p, s in enumerate(symbols))]


def digit_symbol(word, p):
    symbols = digits_of(*word)
    refuse_if(p >= len(symbols), OUTSIDE)
    return symbols[p]


def digit_stabilizer(word):
    symbols = digits_of(*word)
    return fitting(prod(factorial(symbols.count(s)) for s in set(symbols)))


def digit_concat(x, y):
    symbols = digits_of(*x) + digits_of(*y)
    refuse_if(x[0] != y[0], SHAPE)
    return digit_word(x[0], symbols)


def digit_delete(word, p):
    deleted, symbols = digit_symbol(word, p), digits_of(*word)
    return [deleted, digit_word(word[0], symbols[:p] + symbols[p + 1:])[1]]


# ---- exponents

def width(n, k):
    refuse_if(n > 64 or k > 64 or shifted_alphabet("allowed", n, k) > 64, TOO_WIDE)


def exp_word(entries):
    width(len(entries), sum(entries))
    return [s for s, e in enumerate(entries) for _ in range(e)]


def exp_from(room, n, word):
    width(n, len(word))
    refuse_if(any(s >= n for s in word), OUTSIDE)
    return lend(room, [word.count(s) for s in range(n)])


def exp_unrank(room, n, k, r):
    width(n, k)
    return exp_from(room, n, word_of("allowed", unrank_over("allowed", n, k, r)[1]))


def exp_add(room, x, y):
    width(len(x), sum(x))
    width(len(y), sum(y))
    refuse_if(len(x) != len(y), SHAPE)
    width(len(x), sum(x) + sum(y))
    return lend(room, [a + b for a, b in zip(x, y)])


# ---- the image of the coefficient tables

# The fields of the contents list: the number of tables, then for each table a row of these, by name and bytes.

MOST_BYTES, MOST_TABLES = 65536, 64
NAMES = ("forbidden", "allowed")
ROW = (("family", 1), ("degree", 1), ("alphabet", 1), ("zero", 1), ("offset", 4), ("entries", 4))


def field(image, at, size):
    """A field that is there; an image that ends before or inside it is refused at its length."""
    refuse_if(at + size > len(image), BAD_IMAGE, len(image))
    return int.from_bytes(image[at:at + size], "little")


def entries_right(row, above):
    """Whether a row's number of entries is the count, is not 0, and ends its body, which starts at `above`, in time."""
    words = count(NAMES[row["family"]], row["alphabet"], row["degree"])
    return row["entries"] == words != 0 and above + 8 * words <= MOST_BYTES


def field_right(name, row, rows, above):
    """Whether a field of a row is right, given the fields before it, the rows above and where the body has to start."""
    value = row[name]
    return {
        "family": lambda: value < 2,
        "degree": lambda: value <= 64 and (row["family"], value) not in [(r["family"], r["degree"]) for r in rows],
        "alphabet": lambda: shifted_alphabet(NAMES[row["family"]], value, row["degree"]) <= 64,
        "zero": lambda: value == 0,
        "offset": lambda: value == above,
        "entries": lambda: entries_right(row, above),
    }[name]()


def image_rows(image):
    """The rows of a good image, from its first byte to its last."""
    tables, rows, at = field(image, 0, 4), [], 4
    refuse_if(not 1 <= tables <= MOST_TABLES, BAD_IMAGE, 0)
    end = 4 + tables * sum(size for _, size in ROW)
    for _ in range(tables):
        row = {}
        for name, size in ROW:
            row[name] = field(image, at, size)
            refuse_if(not field_right(name, row, rows, end), BAD_IMAGE, at)
            at += size
        rows.append(row)
        end += 8 * row["entries"]
    refuse_if(len(image) != end, BAD_IMAGE, min(len(image), end))
    return rows


def image_row(image, family, k):
    found = [row for row in image_rows(image) if (NAMES[row["family"]], row["degree"]) == (family, k)]
    refuse_if(not found, NO_SUCH_TABLE)
    return [found[0][name] for name in ("alphabet", "offset", "entries")]


def image_lookup(image, x):
    k, r = degree(x), rank_of(x)
    alphabet, offset, _ = image_row(image, x[0], k)
    refuse_if(any(s >= alphabet for s in word_of(x[0], x[2])), NO_SUCH_RANK)
    return int.from_bytes(image[offset + 8 * r:offset + 8 * r + 8], "little")


def image_write(room, contents, bodies):
    image_rows(contents + bodies)
    return lend(room, contents + bodies)


def by_record(place, call, *given):
    """A call by a reader record: its place is that of the contents list, which is 0."""
    refuse_if(place != 0, OUTSIDE)
    return call(*given)


def pieces(given):
    """The verdict after the last piece. A refusal is told as soon as no further byte can change it."""
    image = b""
    for piece in given:
        if piece == "end":
            return len(image_rows(image))
        image += piece
        try:
            image_rows(image)
        except Refused as e:
            if e.args[1] < len(image):
                raise
    return "open"


# ---- the mass of one frame: every step is one operation of Python's floats, which are doubles and round to nearest

def double(bits):
    return struct.unpack("<d", bits.to_bytes(8, "little"))[0]


def spelled(x):
    """The sixteen digits of a double."""
    return struct.pack(">d", x).hex()


@functools.cache
def words_of_two(k):
    """The words of k pressures and temperatures by rank."""
    return [word_of("allowed", unrank_over("allowed", 2, k, r)[1]) for r in range(k + 1)]


def join(pressure_frame, pressure, temperature_frame, temperature):
    refuse_if(pressure_frame != temperature_frame, FRAMES_DIFFER)
    return [pressure_frame, spelled(pressure), spelled(temperature)]


def mass(image, pressure_frame, pressure, temperature_frame, temperature):
    join(pressure_frame, pressure, temperature_frame, temperature)
    rows = image_rows(image)
    refuse_if(any((NAMES[row["family"]], row["alphabet"]) != ("allowed", 2) for row in rows), OUTSIDE)
    readings, coefficients, total = (pressure, temperature), [], 0.0
    for row in sorted(rows, key=lambda row: row["degree"]):
        for r, word in enumerate(words_of_two(row["degree"])):
            at = row["offset"] + 8 * r
            coefficients.append(double(int.from_bytes(image[at:at + 8], "little")))
            monomial = 1.0
            for symbol in word:
                monomial = monomial * readings[symbol]
            product = coefficients[-1] * monomial
            total = total + product
    refuse_if(not all(map(isfinite, [*readings, *coefficients, total])), NOT_FINITE)
    return spelled(total)


def in_frame(call, *given):
    """A call whose refusal names the frame of the pressure, which is then that of both readings or the first of the two that differ."""
    try:
        return call(*given)
    except Refused as e:
        e.frame = given[-4]
        raise


# ---- derivatives: every term hands its coefficient, times the multiplicity of s, to the word that it leaves when an s is taken out

def derive(room, n, k, s, table):
    width(n, k)
    refuse_if(k == 0, OUTSIDE)
    refuse_if(s >= n, OUTSIDE)
    refuse_if(len(table) != count("allowed", n, k), SHAPE)
    entries = [None] * count("allowed", n, k - 1)
    refuse_if(room < len(entries), SHAPE)
    for q, c in enumerate(table):
        term = word_of("allowed", unrank_over("allowed", n, k, q)[1])
        if s in term:
            times = term.count(s)
            term.remove(s)
            entries[rank("allowed", term)] = c * times
    refuse_if(not all(-2**63 <= e < 2**63 for e in entries), TOO_BIG)
    return entries


# ---- old tables: the words over n in lexicographic order, one after the other

def lex_first(family, n, k):
    """The lexicographically first word of k symbols below n, if there is one."""
    word = list(range(k)) if family == "forbidden" else [0] * k
    return word if all(s < n for s in word) else None


def lex_later(family, n, word):
    """The next one: the highest symbol that can be raised is raised, and those above it are the lowest that can stand there."""
    for p in reversed(range(len(word))):
        above = len(word) - p
        rest = [word[p] + 1 + (i if family == "forbidden" else 0) for i in range(above)]
        if rest[-1] < n:
            return word[:p] + rest
    return None


def lex_rank(family, n, word):
    """How many words are earlier: for each position those that agree below it and have a smaller symbol there."""
    pack(family, n, word)
    earlier, least = 0, 0
    for p, s in enumerate(word):
        left = len(word) - p - 1
        for x in range(least, s):
            low = x + 1 if family == "forbidden" else x
            earlier += comb(shifted_alphabet(family, n - low, left), left)
        least = s + 1 if family == "forbidden" else s
    return earlier


def lex_unrank(room, family, n, k, r):
    refuse_if(r >= count(family, n, k), NO_SUCH_RANK)
    word, least = [], 0
    for left in reversed(range(k)):
        for x in range(least, n):
            low = x + 1 if family == "forbidden" else x
            c = comb(shifted_alphabet(family, n - low, left), left)
            if r < c:
                break
            r -= c
        word.append(x)
        least = low
    return lend(room, word)


def lex_next(room, family, n, word):
    pack(family, n, word)
    later = lex_later(family, n, word)
    refuse_if(later is None, LAST)
    return lend(room, later)


def lex_converted(room, family, n, k, body, back):
    """The body in the other order. The output has as many bytes as the body, or the room that was asked for."""
    size = 8 * count(family, n, k)
    refuse_if(len(body) != size or (len(body) if room is None else room) != size, SHAPE)
    places, word = [], lex_first(family, n, k)
    while word is not None:
        places.append(rank(family, word))
        word = lex_later(family, n, word)
    entries = [body[8 * r:8 * r + 8] for r in range(size // 8)]
    if back:
        return b"".join(entries[place] for place in places)
    return b"".join(entries[places.index(place)] for place in range(len(places)))


# ---- the wide index: a family and a set of shifted symbols below 128, in two halves, with no alphabet

WIDE = 128


def wide_set(low, high):
    return [s for s in range(WIDE) if (high << 64 | low) >> s & 1]


def wide_word(family, symbols):
    return [s - shift(family, i) for i, s in enumerate(symbols)]


def halves(family, word):
    """The low and the high half of a word whose shifted symbols are below 128."""
    whole = bits_of(s + shift(family, i) for i, s in enumerate(word))
    return [whole % 2**64, whole // 2**64]


def wide_count(family, n, k):
    refuse_if(k > WIDE or shifted_alphabet(family, n, k) > WIDE, TOO_WIDE)
    return fitting(comb(shifted_alphabet(family, n, k), k))


def wide_rank(family, word):
    """The rank is an exact sum; that it is 2^64 or more is the last thing to be judged."""
    refuse_if(len(word) > WIDE, TOO_WIDE)
    for p in range(1, len(word)):
        refuse_if(word[p] < word[p - 1] or family == "forbidden" and word[p] == word[p - 1], NOT_MONOTONE, p)
    refuse_if(word and word[-1] + shift(family, len(word) - 1) >= WIDE, TOO_WIDE)
    return fitting(rank_of_set([s + shift(family, i) for i, s in enumerate(word)]))


def wide_rank_of(x):
    return fitting(rank_of_set(wide_set(*x[1:])))


def wide_unranked(family, n, k, r):
    """The word: from the highest position down the greatest shifted symbol whose words all stand before r."""
    refuse_if(r >= wide_count(family, n, k), NO_SUCH_RANK)
    symbols, s = [], shifted_alphabet(family, n, k)
    for i in range(k, 0, -1):
        s -= 1
        while comb(s, i) > r:
            s -= 1
        r -= comb(s, i)
        symbols.insert(0, s)
    return wide_word(family, symbols)


def wide_unrank_any(family, k, r):
    refuse_if(k > WIDE, TOO_WIDE)
    return wide_unranked(family, WIDE if family == "forbidden" or k == 0 else WIDE + 1 - k, k, r)


def wide_next(x):
    """The lowest symbol that can rise does, and those below it become the lowest."""
    symbols = wide_set(*x[1:])
    for i, s in enumerate(symbols):
        if s + 1 < (symbols + [WIDE])[i + 1]:
            return halves("forbidden", [*range(i), s + 1, *symbols[i + 1:]])
    refuse_if(True, LAST)


def wide_merge(x, y):
    refuse_if(x[0] != y[0], FAMILY_DIFFERS)
    sign, word = sorted_term(x[0], [s for z in (x, y) for s in wide_word(z[0], wide_set(*z[1:]))])
    refuse_if(word and word[-1] + shift(x[0], len(word) - 1) >= WIDE, TOO_WIDE)
    return [sign, *halves(x[0], word)]


def wide_delete(x, p):
    word = wide_word(x[0], wide_set(*x[1:]))
    refuse_if(p >= len(word), OUTSIDE)
    left = word[:p] + word[p + 1:]
    return [sign_of([word[p]] + left) if x[0] == "forbidden" else "+", word[p], *halves(x[0], left)]


# ---- the requests: a pattern of the words after the verb (F a family, n a number, * a list, W a longer one, Z one of signed numbers,
# P a permutation, B bytes, D a float, X pieces, / itself), and the answer


REQUESTS = {
    "count": ("F n n", lambda room, f, n, k: count(f, n, k)),
    "walk": ("F n n s", lambda room, f, n, k, s: walk(f, n, k, s)),
    "unrank": ("F n n n", lambda room, f, n, k, r: unrank(room, f, n, k, r)),
    "unrankover": ("F n n n", lambda room, f, n, k, r: unrank_over(f, n, k, r)),
    "unrankany": ("F n n", lambda room, f, k, r: unrank_any(f, k, r)),
    "rank": ("F *", lambda room, f, w: rank(f, w)),
    "rankof": ("F n n", lambda room, *x: rank_of(x)),
    "pack": ("F n *", lambda room, f, n, w: pack(f, n, w)),
    "unpack": ("F n n", lambda room, *x: unpack(room, x)),
    "next": ("F n n", lambda room, *x: successor(x)),
    "step here": ("F n n n", lambda room, *x: step(x[:3], x[3])),
    "step nowhere": ("F n", lambda room, f, remaining: refuse_if(True, LAST)),
    "symbol": ("F n n n", lambda room, *x: symbol(x[:3], x[3])),
    "degree": ("F n n", lambda room, *x: degree(x)),
    "canonical": ("F n *", lambda room, f, n, w: canonical(f, n, w)),
    "merge": ("F n n F n n", lambda room, *x: merge(x[:3], x[3:])),
    "delete": ("F n n n", lambda room, *x: delete(x[:3], x[3])),
    "complement": ("F n n n", lambda room, *x: complement(x[:3], x[3])),
    "stabilizer": ("F n n", lambda room, *x: stabilizer(x)),
    "insert": ("n n", lambda room, x, s: insert(x, s)),
    "contains": ("n n", lambda room, x, s: "yes" if s in set_of(x) else "no"),
    "position": ("n n", lambda room, x, s: position(x, s)),
    "select": ("n n", lambda room, x, p: select(x, p)),
    "permrank": ("P", lambda room, p: perm_rank(p)),
    "permsign": ("P", lambda room, p: perm_sign(p)),
    "perminverse": ("P", lambda room, p: perm_inverse(p)),
    "permnext": ("P", lambda room, p: perm_next(p)),
    "permunrank": ("n n", lambda room, n, r: perm_unrank(n, r)),
    "permimage": ("n / P", lambda room, i, p: perm_image(p, i)),
    "permcompose": ("P / P", lambda room, p, q: perm_compose(p, q)),
    "shapecount": ("*", lambda room, r: shape_count(r)),
    "strides": ("*", lambda room, r: strides(room, r)),
    "linearize": ("* / *", lambda room, r, d: linearize(r, d)),
    "delinearize": ("n / *", lambda room, x, r: delinearize(room, x, r)),
    "corner": ("n / *", lambda room, axes, r: corner(axes, r)),
    "digits": ("n / *", lambda room, radix, s: digit_word(radix, s)),
    "digitsymbols": ("n n n", lambda room, *x: lend(room, digits_of(*x))),
    "digitsymbol": ("n n n n", lambda room, *x: digit_symbol(x[:3], x[3])),
    "digitcount": ("n n", lambda room, radix, degree: digit_count(radix, degree)),
    "digitmultiplicity": ("n n n n", lambda room, *x: digits_of(*x[:3]).count(x[3])),
    "digitstabilizer": ("n n n", lambda room, *x: digit_stabilizer(x)),
    "digitconcat": ("n n n n n n", lambda room, *x: digit_concat(x[:3], x[3:])),
    "digitdelete": ("n n n n", lambda room, *x: digit_delete(x[:3], x[3])),
    "exprank": ("*", lambda room, e: rank("allowed", exp_word(e))),
    "expword": ("*", lambda room, e: lend(room, exp_word(e))),
    "expfrom": ("n / *", lambda room, n, w: exp_from(room, n, w)),
    "expunrank": ("n n n", lambda room, n, k, r: exp_unrank(room, n, k, r)),
    "expadd": ("* / *", lambda room, x, y: exp_add(room, x, y)),
    "imagecheck": ("B", lambda room, b: len(image_rows(b))),
    "imagerow": ("B F n", lambda room, b, f, k: image_row(b, f, k)),
    "imagelookup": ("B F n n", lambda room, b, *x: image_lookup(b, x)),
    "imagewrite": ("B B", lambda room, c, d: image_write(room, c, d)),
    "recordcheck": ("n B", lambda room, p, b: len(by_record(p, image_rows, b))),
    "recordrow": ("n B F n", lambda room, p, b, f, k: by_record(p, image_row, b, f, k)),
    "recordlookup": ("n B F n n", lambda room, p, b, *x: by_record(p, image_lookup, b, x)),
    "pieces": ("X", lambda room, given: pieces(given)),
    "join": ("n D n D", lambda room, *x: in_frame(join, *x)),
    "mass": ("B n D n D", lambda room, *x: in_frame(mass, *x)),
    "derive": ("n n n / Z", lambda room, n, k, s, table: derive(room, n, k, s, table)),
    "lexrank": ("F n *", lambda room, f, n, w: lex_rank(f, n, w)),
    "lexunrank": ("F n n n", lambda room, f, n, k, r: lex_unrank(room, f, n, k, r)),
    "lexnext": ("F n *", lambda room, f, n, w: lex_next(room, f, n, w)),
    "lexto": ("F n n B", lambda room, f, n, k, b: lex_converted(room, f, n, k, b, False)),
    "lexfrom": ("F n n B", lambda room, f, n, k, b: lex_converted(room, f, n, k, b, True)),
    "widecount": ("F n n", lambda room, f, n, k: wide_count(f, n, k)),
    "widerank": ("F W", lambda room, f, w: wide_rank(f, w)),
    "widerankof": ("F n n", lambda room, *x: wide_rank_of(x)),
    "wideunrank": ("F n n n", lambda room, f, n, k, r: lend(room, wide_unranked(f, n, k, r))),
    "wideunrankover": ("F n n n", lambda room, f, n, k, r: halves(f, wide_unranked(f, n, k, r))),
    "wideunrankany": ("F n n", lambda room, f, k, r: halves(f, wide_unrank_any(f, k, r))),
    "widenext": ("F n n", lambda room, *x: wide_next(x)),
    "widemerge": ("F n n F n n", lambda room, *x: wide_merge(x[:3], x[3:])),
    "widedelete": ("F n n n", lambda room, *x: wide_delete(x[:3], x[3])),
}

# These must fit exactly: they are given the room as it was asked for, or None.
EXACT = ("lexto", "lexfrom")


class Bad(Exception):
    pass


def number(word):
    if not re.fullmatch("0|[1-9][0-9]*", word) or int(word) >= 2**64:
        raise Bad
    return int(word)


def bytes_of(word):
    if word != "-" and not re.fullmatch("([0-9a-f]{2})+", word):
        raise Bad
    return b"" if word == "-" else bytes.fromhex(word)


def float_of(word):
    if not re.fullmatch("[0-9a-f]{16}", word):
        raise Bad
    return double(int(word, 16))


def signed(word):
    if not re.fullmatch("0|-?[1-9][0-9]*", word) or not -2**63 <= int(word) < 2**63:
        raise Bad
    return int(word)


def arguments(pattern, words):
    taken = []
    for part in pattern.split():
        if part in "ZW":
            taken.append([signed(w) if part == "Z" else number(w) for w in words])
            if len(words) > (MAX_LIST if part == "Z" else MAX_WIDE):
                raise Bad
            words = []
            continue
        if part in "*P":
            stop = words.index("/") if "/" in words else len(words)
            raw = part == "P" and words[:1] == ["raw"]
            values = [number(w) for w in words[raw:stop]]
            if len(values) > (PLACES + 1 if raw else MAX_LIST) or raw and not values:
                raise Bad
            taken.append(values if part == "*" else record(values[0], values[1:]) if raw else record(len(values), values))
            words = words[stop:]
            continue
        if not words:
            raise Bad
        if part == "X":
            return taken + [[w if w == "end" else bytes_of(w) for w in words]]
        if part == "F" and words[0] not in ("forbidden", "allowed") or part == "/" and words[0] != "/":
            raise Bad
        reads = {"F": str, "n": number, "s": number, "B": bytes_of, "D": float_of, "/": str}
        value = reads[part](words[0])
        if part == "s" and value == 0:
            raise Bad
        taken += [value] if part != "/" else []
        words = words[1:]
    if words:
        raise Bad
    return taken


def asked(line):
    words, room, exact = line.split(" "), MOST_BYTES, None
    if words[0] == "room" and len(words) > 1:
        exact = number(words[1])
        room, words = min(exact, MOST_BYTES), words[2:]
    verb = 2 if words[:1] == ["step"] else 1
    if " ".join(words[:verb]) not in REQUESTS:
        raise Bad
    pattern, answer = REQUESTS[" ".join(words[:verb])]
    value = answer(exact if words[0] in EXACT else room, *arguments(pattern, words[verb:]))
    if isinstance(value, bytes):
        return value.hex() or "-"
    return " ".join(map(str, value)) if isinstance(value, list) else str(value)


def ask(line):
    try:
        if len(line) > MAX_LINE:
            raise Bad
        return asked(line)
    except Bad:
        return "bad line"
    except Refused as e:
        return f"refused {e}"


# ---- the program of document 01

def terms(line):
    try:
        words = line.split(" ")
        family, n, k = arguments("F n n", words)
        c = count(family, n, k)
    except Bad:
        return "bad line"
    except Refused as e:
        return f"refused {e}"
    lines = [f"{family} {n} {k} {c}"]
    if c <= 4096:
        lines += [" ".join([f"{r}:"] + list(map(str, word_of(family, unrank_over(family, n, k, r)[1])))) for r in range(c)]
    return "\n".join(lines)


# ---- the definitions themselves, where the words can be listed

def refusal(call, *given):
    """The number of a refusal, or None."""
    try:
        call(*given)
    except Refused as e:
        return e.args[0]


def test():
    for family, n, bits in itertools.product(("forbidden", "allowed"), range(6), range(256)):
        word = word_of(family, bits)
        assert (refusal(taken, (family, n, bits)) == OUTSIDE) == (max(word, default=-1) >= n)
    for family, n, k in itertools.product(("forbidden", "allowed"), range(6), range(6)):
        choose = itertools.combinations if family == "forbidden" else itertools.combinations_with_replacement
        colex = sorted(choose(range(n), k), key=lambda w: w[::-1])
        assert count(family, n, k) == len(colex)
        for r, word in enumerate(map(list, colex)):
            index = pack(family, n, word)
            x = (family, *index)
            assert unpack(k, x) == word and rank_of(x) == rank(family, word) == r and unrank_over(family, n, k, r) == index
            assert refusal(successor, x) == LAST if r + 1 == len(colex) else successor(x) == pack(family, n, list(colex[r + 1]))
            if family == "allowed":
                entries = exp_unrank(n, n, k, r)
                assert exp_word(entries) == word and exp_from(n, n, word[::-1]) == entries
        lex = [list(w) for w in choose(range(n), k)]
        old = b"".join(r.to_bytes(8, "little") for r in range(len(lex)))
        new = lex_converted(None, family, n, k, old, False)
        assert lex == sorted(lex) and lex_converted(None, family, n, k, new, True) == old
        for r, word in enumerate(lex):
            assert lex_rank(family, n, word) == r and lex_unrank(k, family, n, k, r) == word
            assert refusal(lex_next, k, family, n, word) == LAST if r + 1 == len(lex) else lex_next(k, family, n, word) == lex[r + 1]
            assert int.from_bytes(new[8 * rank(family, word):][:8], "little") == r
    for n, k in itertools.product(range(1, 4), range(1, 5)):
        table = [(-1)**q * (7 * q + 3) for q in range(count("allowed", n, k))]
        terms_of = [tuple(word_of("allowed", unrank_over("allowed", n, k, q)[1])) for q in range(len(table))]
        for s in range(n):
            for r, entry in enumerate(derive(99, n, k, s, table)):
                w = word_of("allowed", unrank_over("allowed", n, k - 1, r)[1])
                assert entry == sum(c for u, c in zip(terms_of, table) for p in range(k) if u[p] == s and list(u[:p] + u[p + 1:]) == w)
            for t in range(n if k > 1 else 0):
                assert derive(99, n, k - 1, t, derive(99, n, k, s, table)) == derive(99, n, k - 1, s, derive(99, n, k, t, table))
    for n in range(6):
        for r, p in enumerate(map(list, sorted(itertools.permutations(range(n)), key=lambda p: p[::-1]))):
            x = record(n, p)
            assert perm_rank(x) == r and perm_unrank(n, r) == p and perm_compose(record(n, perm_inverse(x)), x) == list(range(n))
    for radices in map(list, itertools.product(range(1, 5), repeat=3)):
        for x, digits in enumerate(itertools.product(*map(range, radices[::-1]))):
            assert linearize(radices, digits[::-1]) == x and delinearize(3, x, radices) == list(digits[::-1])
            if radices == radices[:1] * 3:
                assert digit_word(radices[0], digits[::-1]) == [3, x] and digits_of(radices[0], 3, x) == list(digits[::-1])
    test_images()
    test_masses()
    test_wide()


# Images that are short to write, with what comes of them: the readings of 02 in the order of the fields.
SMALLEST = "01000000" "00000000" "10000000" "01000000" "0102030405060708"
IMAGES = [
    (SMALLEST, "1"), ("-", "11 at 0"), ("ffffff", "11 at 3"), ("ffffff00", "11 at 0"), ("00000000", "11 at 0"), ("41000000", "11 at 0"),
    ("40000000", "11 at 4"), (SMALLEST + "00", "11 at 24"), (SMALLEST[:-2], "11 at 23"), (SMALLEST[:32], "11 at 16"), (SMALLEST[:30], "11 at 15"),
    ("01000000" "02", "11 at 4"), ("01000000" "0041", "11 at 5"), ("01000000" "000041", "11 at 6"), ("01000000" "00000001", "11 at 7"),
    ("01000000" "014002", "11 at 6"), ("01000000" "01400000" "10000000" "00000000", "11 at 12"), ("01000000" "00000000" "00000000", "11 at 8"),
    ("01000000" "00000000" "11000000", "11 at 8"), ("01000000" "00000000" "110000", "11 at 11"), ("01000000" "00000000" "10000000" "02000000", "11 at 12"),
    ("01000000" "00030200" "10000000" "00000000", "11 at 12"), ("01000000" "00061400" "10000000" "68970000", "11 at 12"),
    ("02000000" "01020100" "1c000000" "01000000" "0102", "11 at 17"), ("02000000" "01000100" "1c000000" "01000000" "00004000" "24000000" "01000000", "11 at 28"),
    ("02000000" "00000000" "1c000000" "01000000" "09", "11 at 16"),
]


def test_images():
    for image, says in IMAGES:
        assert ask("imagecheck " + image).removeprefix("refused ") == says
        for i in range(0, len(image) if image != "-" else 1, 2):
            cut = f"{image[:i] or '-'} {image[i:]}"
            assert ask(f"pieces {cut} end").removeprefix("refused ") == says
            assert ask(f"imagewrite {cut}").removeprefix("refused ") == (image if says == "1" else says)
    # Over three quantities (5, 6, 7, 8, 9, 10) at degree 2: the term (0, 2) has rank 3; a table over two quantities does not have it.
    three = "01000000" "01020300" "10000000" "06000000" + "".join(f"0{i:x}00000000000000" for i in range(5, 11))
    two = "01000000" "01020200" "10000000" "03000000" + "".join(f"0{i:x}00000000000000" for i in range(5, 8))
    for image, term, says in [
        (three, "allowed 3 9", "8"), (three, "allowed 50 9", "8"), (two, "allowed 3 9", "refused 3"), (two, "allowed 2 6", "7"),
        (two, "forbidden 4 3", "refused 12"), (two, "allowed 2 1", "refused 12"), (two, "allowed 2 9", "refused 7"), (two, "allowed 64 3", "refused 1"),
        ("-", "allowed 2 9", "refused 7"), ("-", "allowed 2 3", "refused 11 at 0"),
    ]:
        assert ask(f"imagelookup {image} {term}") == ask(f"recordlookup 0 {image} {term}") == says
        assert ask(f"recordlookup 4 {image} {term}") == "refused 7"


# Surfaces that tell the sequence of 02 from one that is near it: the tables by degree, the readings, the digits of the mass, those of the slip, and the slip.
MASSES = [
    ({0: [1.0], 1: [0.1, 0.0]}, 1.3, 0.1, "3ff2147ae147ae14", "3ff2147ae147ae15"),  # a product and a sum rounded as one
    ({0: [0.1], 1: [0.2, 0.3]}, 0.1, 0.7, "3fd51eb851eb851f", "3fd51eb851eb851e"),  # degrees falling
    ({2: [0.1, 0.0, 0.0]}, 1 / 3, 0.1, "3f86c16c16c16c17", "3f86c16c16c16c16"),  # the coefficient multiplied in first
    ({3: [0.0, 0.1, 0.2, 0.0]}, 0.1, 1.3, "3fa1f8a0902de00e", "3fa1f8a0902de00f"),  # symbols falling
    ({4: [0.0, 0.1, 0.2, 0.3, 0.0]}, 0.1, 0.7, "3f87396d0917d6b6", "3f87396d0917d6b5"),  # two powers multiplied
]


def surface(tables):
    """The image of a surface: its tables by degree, in the order in which they are given."""
    contents, bodies, end = len(tables).to_bytes(4, "little"), b"", 4 + 12 * len(tables)
    for k, entries in tables.items():
        contents += bytes([1, k, 2, 0]) + (end + len(bodies)).to_bytes(4, "little") + len(entries).to_bytes(4, "little")
        bodies += struct.pack(f"<{len(entries)}d", *entries)
    return contents + bodies


def asked_mass(tables, p, t, frames=(4, 4)):
    return f"mass {surface(tables).hex()} {frames[0]} {spelled(p)} {frames[1]} {spelled(t)}"


def test_masses():
    for tables, p, t, digits, slip in MASSES:
        backwards = dict(reversed(tables.items()))
        assert ask(asked_mass(tables, p, t)) == ask(asked_mass(backwards, p, t)) == digits != slip
    inf, nan, constant = float("inf"), float("nan"), {0: [1.0]}
    for request, says in [
        (asked_mass(constant, 1e200, 1e200), spelled(1.0)), (asked_mass({0: [-0.0]}, -0.0, 2.0), spelled(0.0)), (asked_mass({0: [-2.0]}, 1.0, 1.0), spelled(-2.0)),
        (asked_mass({0: [5e-324]}, 1.0, 1.0), "0000000000000001"), (asked_mass({1: [5e-324, 0.0]}, 0.5, 1.0), "0000000000000000"),
        (asked_mass({**constant, 2: [0.0, 0.0, 0.0]}, 1e200, 1e200), "refused 14 frame 4"), (asked_mass(constant, 1.0, inf), "refused 14 frame 4"),
        (asked_mass(constant, nan, 1.0), "refused 14 frame 4"), (asked_mass({0: [inf]}, 1.0, 1.0), "refused 14 frame 4"),
        (asked_mass({1: [inf, 0.0]}, 0.0, 1.0), "refused 14 frame 4"), (asked_mass({0: [1.7e308], 1: [1.7e308, 0.0]}, 1.0, 1.0), "refused 14 frame 4"),
        (asked_mass(constant, nan, 1.0, (4, 5)), "refused 13 frame 4"), (asked_mass(constant, nan, 1.0, (0, 2**64 - 1)), "refused 13 frame 0"),
        ("mass - 4 7ff8000000000000 4 3ff0000000000000", "refused 11 at 0 frame 4"), ("mass - 4 7ff8000000000000 5 3ff0000000000000", "refused 13 frame 4"),
        (f"mass {SMALLEST} 4 7ff8000000000000 4 3ff0000000000000", "refused 7 frame 4"),
        ("join 1 7ff8000000000000 1 4000000000000000", "1 7ff8000000000000 4000000000000000"), ("join 1 7ff8000000000000 2 4000000000000000", "refused 13 frame 1"),
        ("join 1 3FF0000000000000 1 4000000000000000", "bad line"), ("join 1 3ff000000000000 1 4000000000000000", "bad line"),
    ]:
        assert ask(request) == says


# The readings of 02 on the wide index, each request with its answer.
WIDES = [
    ("widecount forbidden 128 128", "1"), ("widecount forbidden 128 64", "refused 9"), ("widecount forbidden 129 0", "refused 1"),
    ("widecount forbidden 0 129", "refused 1"), ("widecount allowed 128 1", "128"), ("widecount allowed 128 2", "refused 1"),
    ("widecount allowed 127 2", "8128"), ("widecount forbidden 67 33", "14226520737620288370"), ("widecount forbidden 68 33", "refused 9"),
    ("widecount forbidden 128 15", str(comb(128, 15))), ("widecount forbidden 128 16", "refused 9"),
    ("widecount forbidden 128 113", str(comb(128, 15))), ("widecount forbidden 128 112", "refused 9"), ("widecount allowed 0 3", "0"),
    ("widecount allowed 18446744073709551615 2", "refused 1"), ("widecount allowed 129 0", "refused 1"),
    ("wideunrankover forbidden 128 64 0", "refused 9"), ("wideunrankover forbidden 129 64 0", "refused 1"),
    ("wideunrankover forbidden 128 1 128", "refused 3"), ("wideunrankover forbidden 128 1 127", "0 9223372036854775808"),
    ("wideunrankover forbidden 128 1 64", "0 1"), ("wideunrank forbidden 128 1 64", "64"), ("room 0 wideunrank forbidden 128 1 64", "refused 8"),
    ("room 0 wideunrank forbidden 128 1 128", "refused 3"), ("room 0 wideunrank forbidden 128 64 0", "refused 9"), ("wideunrank allowed 1 0 0", ""),
    ("wideunrankany forbidden 16 0", "refused 9"), ("wideunrankany allowed 16 0", "refused 9"), ("wideunrankany allowed 15 0", "32767 0"),
    ("wideunrankany forbidden 129 0", "refused 1"), ("wideunrankany allowed 128 0", "18446744073709551615 18446744073709551615"),
    ("wideunrankany allowed 128 1", "refused 3"), ("wideunrankany allowed 0 0", "0 0"), ("wideunrankany allowed 0 1", "refused 3"),
    ("widenext forbidden 9223372036854775808 0", "0 1"), ("widenext allowed 0 9223372036854775808", "refused 4"),
    ("widenext allowed 0 0", "refused 4"), ("widenext forbidden 13835058055282163712 0", "1 1"),
    ("widenext forbidden 9223372036854775808 9223372036854775808", "0 9223372036854775809"), ("widenext forbidden 0 1", "0 2"),
    ("widenext forbidden 18446744073709551615 0", "9223372036854775807 1"),
    ("widedelete allowed 1 1 0", "+ 0 9223372036854775808 0"), ("widedelete allowed 1 1 1", "+ 63 1 0"), ("widedelete allowed 1 1 2", "refused 7"),
    ("widedelete forbidden 1 1 1", "- 64 1 0"), ("widedelete forbidden 0 9223372036854775808 0", "+ 127 0 0"),
    ("widedelete allowed 1 9223372036854775808 1", "+ 126 1 0"), ("widedelete allowed 0 0 0", "refused 7"),
    ("widemerge forbidden 0 1 forbidden 1 0", "- 1 1"), ("widemerge forbidden 1 0 allowed 1 0", "refused 6"),
    ("widemerge forbidden 0 1 forbidden 1 1", "refused 5"), ("widemerge allowed 0 9223372036854775808 allowed 0 0", "+ 0 9223372036854775808"),
    ("widemerge allowed 0 9223372036854775808 allowed 1 0", "refused 1"), ("widemerge allowed 0 4611686018427387904 allowed 1 0", "+ 1 9223372036854775808"),
    ("widemerge allowed 9223372036854775808 0 allowed 1 0", "+ 1 1"), ("widemerge allowed 0 0 allowed 0 0", "+ 0 0"),
    ("widerank forbidden 127", "127"), ("widerank forbidden 128", "refused 1"), ("widerank allowed 0 126", str(comb(127, 2))), ("widerank allowed 0 127", "refused 1"),
    ("widerank forbidden 70 69", "refused 2 at 1"), ("widerank forbidden 200 199", "refused 2 at 1"), ("widerank forbidden" + " 0" * 129, "refused 1"),
    ("widerank allowed" + " 0" * 128, "0"), ("widerank allowed" + " 0" * 129, "refused 1"), ("widerank allowed" + " 0" * 140, "refused 1"),
    ("widerank allowed" + " 0" * 141, "bad line"), ("widerank forbidden", "0"), ("widerank forbidden " + " ".join(map(str, range(64, 128))), "refused 9"),
    ("widerankof forbidden 0 18446744073709551615", "refused 9"), ("widerankof allowed 18446744073709551615 18446744073709551615", "0"),
    ("widecount forbidden 4", "bad line"), ("widerankof forbidden 4", "bad line"), ("widenext forbidden 4 5 6", "bad line"),
    ("widemerge forbidden 0 1", "bad line"), ("widedelete forbidden 0 1", "bad line"),
]


def wide_greatest(k, r):
    """The set of k symbols below 128 that has the rank r, for any r below their number."""
    symbols = []
    for i in range(k, 0, -1):
        symbols.insert(0, max(s for s in range(WIDE) if comb(s, i) <= r))
        r -= comb(symbols[0], i)
    return symbols


def test_wide():
    for line, says in WIDES:
        assert ask(line) == says, line
    # The rank 2^64 - 1 is an answer, 2^64 is not; the degrees of both are those that have so many words.
    for k in range(15, 114):
        for r, says in ((2**64 - 1, 2**64 - 1), (2**64, None)):
            if r < comb(WIDE, k):
                symbols = wide_greatest(k, r)
                x = ("forbidden", *halves("forbidden", symbols))
                assert (refusal(wide_rank_of, x) == TOO_BIG) if says is None else (wide_rank_of(x) == says == wide_rank("forbidden", symbols))
    # On an alphabet that fits in 64 the wide form gives what the narrow one gives, wherever that answers.
    for family, n, k in itertools.product(("forbidden", "allowed"), range(7), range(7)):
        assert wide_count(family, n, k) == count(family, n, k)
        for r in range(count(family, n, k)):
            bits = unrank_over(family, n, k, r)[1]
            x, word = (family, bits, 0), word_of(family, bits)
            assert wide_unranked(family, n, k, r) == word and halves(family, word) == [bits, 0] and wide_rank_of(x) == wide_rank(family, word) == r
            if r + 1 < count(family, n, k):
                assert wide_next(x) == [successor((family, n, bits))[1], 0]
            for p in range(k):
                sign, symbol_there, _, left = delete((family, n, bits), p)
                assert wide_delete(x, p) == [sign, symbol_there, left, 0]


def main():
    if sys.argv[1:] in (["-h"], ["--help"]):
        return print(__doc__.strip())
    if sys.argv[1:] not in (["test"], ["ask"], ["terms"]):
        print(__doc__.strip(), file=sys.stderr)
        sys.exit(2)
    if sys.argv[1] == "test":
        return test()
    answer = {"ask": ask, "terms": terms}[sys.argv[1]]
    lines = sys.stdin.buffer.read().decode("latin-1").split("\n")
    for line in lines if lines[-1] else lines[:-1]:
        print(answer(line))


if __name__ == "__main__":
    main()
