"""Which entry of docs/DIFFERENCES.md explains a call on which the Rust and this port do not give the same answer.

    Call         a request, our answer and what the Rust does, taken apart
    RULES        the entries, each with the verbs, the refusals and the outcomes of the Rust that it covers, and a test on the input; where
                 the Rust answers, the test also says which answer that is, so that an entry explains that answer and no other
    stop_of      the entry of a call on which the Rust panics or has no value: by its cause, and for an overflow by the exact number
    entry_of     the entry that explains a call, or None

A rule says what the Rust does and why. Whether our side of such a call is right is not judged here: `run` holds it to tools/model.py.
"""
from itertools import accumulate
from math import comb, factorial, prod
from operator import mul

LIMIT = 2**64
T = LIMIT - 1
CUT = 2**32

INDEX = "rankof degree unpack next symbol delete complement stabilizer merge"
WORDS = "pack canonical"


class Call:
    def __init__(self, request, ours, theirs):
        words = request.split(" ")
        self.room = None
        if words[0] == "room":
            self.room, words = int(words[1]), words[2:]
        self.verb = words[0]
        self.families = [w for w in words if w in ("forbidden", "allowed")]
        numbers = [w for w in words[1:] if w not in self.families]
        cut = numbers.index("/") if "/" in numbers else len(numbers)
        self.a = [int(w) for w in numbers[:cut]]
        self.b = [int(w) for w in numbers[cut + 1:]]
        # The alphabets of indices, and of a word that is given with one, which the Rust does not know, are kept apart.
        self.alphabets = []
        if self.verb == "merge":
            self.alphabets, self.a = self.a[::2], self.a[1::2]
        elif self.verb in INDEX.split() + WORDS.split():
            self.alphabets, self.a = self.a[:1], self.a[1:]
        self.refused = int(ours.split(" ")[1]) if ours.startswith("refused ") else None
        self.theirs = theirs
        self.outcome = theirs if theirs == "none" or theirs.startswith(("panic ", "not run ")) else "answer"

    def gives(self, *values):
        """Is this what the Rust answers?"""
        return self.theirs == " ".join(map(str, values))


# ---- exact numbers

def bijection(p):
    return sorted(p) == list(range(len(p)))


def partial_products(radices):
    return list(accumulate(radices, mul, initial=1))


def past(radices):
    """Does the product pass 2^64 somewhere on the way?"""
    return any(p >= LIMIT for p in partial_products(radices))


def linear(radices, digits):
    return sum(s * d for s, d in zip(partial_products(radices), digits))


def taken_apart(x, radices):
    """The digits of x; what is left over is dropped."""
    digits = []
    for r in radices:
        x, d = divmod(x, r)
        digits.append(d)
    return digits


def shifted(family, n, k):
    return n + k - 1 if family == "allowed" and k > 0 else n


def choose_or_more(n, k):
    """C(n, k), or some number of 2^64 or more where it is that."""
    k, c = min(k, n - k), 1
    if k < 0:
        return 0
    for d in range(k):
        c = c * (n - d) // (d + 1)
        if c >= LIMIT:
            return c
    return c


def word_rank(family, word):
    return sum(choose_or_more(s + (i if family == "allowed" else 0), i + 1) for i, s in enumerate(word))


def bits_rank(bits):
    return word_rank("forbidden", [s for s in range(64) if bits >> s & 1])


def inversions(p):
    return sum(x > y for j, y in enumerate(p) for x in p[:j])


def symbols_of(family, bits):
    return [s - (i if family == "allowed" else 0) for i, s in enumerate(s for s in range(64) if bits >> s & 1)]


def bits_of(family, word):
    return sum(1 << s + (i if family == "allowed" else 0) for i, s in enumerate(word))


def parity(family, word):
    return "-" if family == "forbidden" and inversions(word) % 2 else "+"


def exponent_word(entries):
    return [s for s, e in enumerate(entries) for _ in range(e)]


# ---- what the Rust answers where it has no limit, checks nothing, or knows no alphabet

def records(c):
    return list(zip(c.families, c.alphabets, c.a))


def accepted(c):
    return all(shifted(f, n, bits.bit_count()) <= 64 and all(s < n for s in symbols_of(f, bits)) for f, n, bits in records(c))


def next_set(bits):
    """The next number with as many ones, by its rank; none after the last below 2^64."""
    k, r, left = bits.bit_count(), bits_rank(bits) + 1, 0
    if r >= comb(64, k):
        return None
    for i in range(k, 0, -1):
        s = max(s for s in range(64) if comb(s, i) <= r)
        r, left = r - comb(s, i), left | 1 << s
    return left


def product_answer(family, n, word):
    """A word in any order as a signed term, or none where the Rust has no value for it."""
    if family == "forbidden" and len(set(word)) < len(word) or any(s + i > 63 for i, s in enumerate(sorted(word)) if family == "allowed"):
        return None
    return [parity(family, word), n, bits_of(family, sorted(word))]


def bare_answer(c):
    """What the Rust answers to a call on indices, of which it knows the family and the bits; none where it stops."""
    f, x, n = c.families[0], c.a[0], c.alphabets[0]
    word = symbols_of(f, x)
    if c.verb == "merge":
        other = symbols_of(c.families[1], c.a[1])
        return product_answer(f, max(c.alphabets), word + other) if f == c.families[1] else None
    if c.verb == "complement":
        rest = [s for s in range(min(c.a[1], 64)) if s not in word]
        return [parity(f, word + rest), c.a[1], bits_of(f, rest)] if f == "forbidden" and c.a[1] <= 64 else None
    if c.verb == "next":
        return None if next_set(x) is None else [n, next_set(x)]
    if c.verb in ("symbol", "delete"):
        p = c.a[1]
        if p >= len(word):
            return None
        left = word[:p] + word[p + 1:]
        return [word[p]] if c.verb == "symbol" else [parity(f, [word[p]] + left), word[p], n, bits_of(f, left)]
    if c.verb == "stabilizer":
        orders = prod(factorial(word.count(s)) for s in set(word))
        return [orders] if orders < LIMIT else None
    return {"rankof": [bits_rank(x)], "degree": [len(word)], "unpack": word}[c.verb]


def bare(c):
    """Does the Rust do what it does for the bits?"""
    given = bare_answer(c)
    return c.outcome != "answer" if given is None else c.gives(*given)


def word_answer(c):
    f, n = c.families[0], c.alphabets[0]
    if c.verb == "pack":
        return [n, bits_of(f, c.a)]
    return product_answer(f, n, c.a)


def over_wide(c):
    """Is the alphabet that a word is given with too wide?"""
    return len(c.a) <= 64 < shifted(c.families[0], c.alphabets[0], len(c.a))


def digit_answer(c):
    if c.verb == "digits":
        return [len(c.b), linear(c.a * len(c.b), c.b)]
    if c.verb == "digitcount":
        return [c.a[0] ** c.a[1]]
    radix, degree, rank = c.a[:3]
    if c.verb == "digitsymbol":
        return [rank // radix ** c.a[3] % radix]
    if c.verb == "digitconcat":
        return [degree + c.a[4], rank + c.a[5] * radix**degree]
    if c.verb == "digitdelete":
        stride = radix ** c.a[3]
        return [rank // stride % radix, rank % stride + rank // (stride * radix) * stride]
    if radix == 0 and c.verb == "digitstabilizer":
        return [1]
    digits = taken_apart(rank, [radix] * degree)
    if c.verb == "digitsymbols":
        return digits
    if c.verb == "digitmultiplicity":
        return [digits.count(c.a[3])]
    return [prod(factorial(digits.count(s)) for s in range(radix))]


def exponent(c):
    """The exponent of the power that is taken."""
    place = {"digitcount": 1, "digitconcat": 1, "digitsymbol": 3}.get(c.verb)
    return c.a[place] if place else 0


def cut_answer(c):
    """The same with that exponent cut to its low 32 bits."""
    power = c.a[0] ** (exponent(c) % CUT)
    if c.verb == "digitcount":
        return [power]
    if c.verb == "digitsymbol":
        return [c.a[2] // power % c.a[0]]
    return [c.a[1] + c.a[4], c.a[2] + c.a[5] * power]


def shape_answer(c):
    if c.verb == "shapecount":
        return [prod(c.a)]
    if c.verb == "strides":
        return partial_products(c.a)[:-1]
    if c.verb == "linearize":
        return [linear(c.a, c.b)]
    if c.verb == "delinearize":
        return taken_apart(c.a[0], c.b)
    return [sum(s for i, s in enumerate(partial_products(c.b)[:-1]) if c.a[0] >> i & 1)]


def longest(c):
    """The greatest length of a permutation that the call takes."""
    return 20 if c.verb in ("permrank", "permnext") else 64


def permutation_answer(c):
    if c.verb == "permrank":
        return [sum(factorial(j) * sum(x < y for x in c.a[:j]) for j, y in enumerate(c.a))]
    if c.verb == "permsign":
        return ["-" if inversions(c.a) % 2 else "+"]
    if c.verb == "permimage":
        return [c.b[c.a[0]]]
    if c.verb == "permcompose":
        return [c.a[i] for i in c.b]
    if c.verb == "permnext":
        return later(c.a)
    given = [0] * len(c.a)
    for i, x in enumerate(c.a):
        given[x] = i
    return given


def later(p):
    """The next permutation in colex order."""
    i = next(i for i in range(1, len(p)) if p[i - 1] > p[i])
    j = next(j for j in range(i) if p[j] > p[i])
    p = list(p)
    p[i], p[j] = p[j], p[i]
    return p[:i][::-1] + p[i:]


def exponent_answer(c):
    if c.verb == "exprank":
        return [word_rank("allowed", exponent_word(c.a))]
    if c.verb == "expword":
        return exponent_word(c.a)
    if c.verb == "expfrom":
        return [c.b.count(s) for s in range(c.a[0])]
    return [x + y for x, y in zip(c.a, c.b)]


# ---- the digit words of a request, and what is wrong with them

def digit_words(c):
    if c.verb == "digits":
        return [(c.a[0], len(c.b), 0)]
    if c.verb == "digitconcat":
        return [tuple(c.a[:3]), tuple(c.a[3:])]
    return [tuple((c.a + [0])[:3])]


def too_many(word):
    """Are there 2^64 such words or more, or is the degree above 64?"""
    return word[1] > 64 or word[0] ** word[1] >= LIMIT


def no_such(word):
    return not too_many(word) and word[2] >= word[0] ** word[1]


# ---- the rules

DIGITS = "digits digitcount digitsymbols digitsymbol digitmultiplicity digitstabilizer digitconcat digitdelete"
SHAPES = "shapecount strides linearize delinearize corner"
PERMUTATIONS = "permrank permsign perminverse permnext permimage permcompose"
EXPONENTS = "exprank expword expfrom expadd"


def lists_of(c):
    """The permutations of a request."""
    return [c.b] if c.verb == "permimage" else [c.a, c.b] if c.verb == "permcompose" else [c.a]


def axes(c):
    return c.b if c.verb in ("delinearize", "corner") else c.a


def count_saturates(c):
    return c.gives(T) and choose_or_more(shifted(c.families[0], c.a[0], c.a[1]), c.a[1]) > T


def exact_count(c):
    return c.gives(choose_or_more(shifted(c.families[0], c.a[0], c.a[1]), c.a[1]))


def unranked(c):
    """Has what the Rust answers the rank that was asked for?"""
    if c.verb == "unrankover":
        return bits_rank(int(c.theirs.split()[1])) == c.a[2]
    if c.verb == "expunrank":
        given = [int(w) for w in c.theirs.split()]
        return len(given) == c.a[0] and sum(given) == c.a[1] and word_rank("allowed", exponent_word(given)) == c.a[2]
    word = [int(w) for w in c.theirs.split()]
    return len(word) == c.a[1] and word_rank(c.families[0], word) == c.a[2]


def walked(c):
    k, s, bits = c.a[1], c.a[2], int(c.theirs.split()[1])
    return bits.bit_count() == k and bits_rank(bits) == s - 1


def walk_ended(c):
    n, k, s = c.a
    return k > 64 or s > comb(64, k) or s > choose_or_more(shifted(c.families[0], n, k), k)


def highest(bits):
    return bits.bit_length() - 1


def corner_overflows_past(c):
    """Does the running product stay below 2^64 up to the highest axis that is needed, and pass it only later?"""
    return past(c.b) and not past(c.b[:highest(c.a[0])] if c.a[0] else [])


def any_input(c):
    return True


# entry, verbs, refusals (None: we answer), outcomes of the Rust, test
RULES = [
    ("D24", INDEX, [1, 7], "answer", lambda c: not accepted(c) and bare(c)),
    ("D24", INDEX, [1, 7], "none", lambda c: not accepted(c) and bare(c)),
    ("D24", INDEX, [1, 7], "panic assertion", lambda c: not accepted(c) and bare(c)),
    ("D24", INDEX, [1, 7], "panic overflow", lambda c: not accepted(c) and bare(c) and stated(c) >= LIMIT),
    ("D25", WORDS, [1], "answer", lambda c: over_wide(c) and c.gives(*word_answer(c))),
    ("D25", "canonical", [1], "none", lambda c: over_wide(c) and word_answer(c) is None),
    ("D25", WORDS, [7], "answer", lambda c: max(c.a) >= c.alphabets[0] and c.gives(*word_answer(c))),
    ("D26", "next", [4], "answer", lambda c: accepted(c) and next_set(c.a[0]) and c.gives(*bare_answer(c))),
    ("D27", "merge", [1], "answer",
     lambda c: accepted(c) and shifted(c.families[0], max(c.alphabets), sum(x.bit_count() for x in c.a)) > 64 and bare(c)),
    ("D1", "unrankany", [3], "answer", lambda c: c.a[0] == 0 < c.a[1] and c.gives(64, 0)),
    ("D2", "linearize", [9], "answer", lambda c: prod(c.a) >= LIMIT and c.gives(linear(c.a, c.b))),
    ("D4", "digitconcat", [9], "answer", lambda c: not any(map(too_many, digit_words(c))) and c.gives(*digit_answer(c))),
    ("D3", DIGITS, [9], "answer", lambda c: any(map(too_many, digit_words(c))) and c.gives(*digit_answer(c))),
    ("D5", "delinearize", [9], "answer", lambda c: prod(c.b) >= LIMIT and c.gives(*taken_apart(c.a[0], c.b))),
    ("D6", "complement", [7], "answer", lambda c: accepted(c) and bare(c)),
    ("D7", "linearize", [7], "answer", lambda c: any(d >= r for r, d in zip(c.a, c.b)) and c.gives(linear(c.a, c.b))),
    ("D8", "delinearize", [3], "answer", lambda c: c.a[0] >= prod(c.b) and c.gives(*taken_apart(c.a[0], c.b))),
    ("D9", DIGITS, [3], "answer", lambda c: any(map(no_such, digit_words(c))) and c.gives(*digit_answer(c))),
    ("D10", PERMUTATIONS, [10], "answer", lambda c: not all(map(bijection, lists_of(c))) and c.gives(*permutation_answer(c))),
    ("D12", "count", [1], "answer", count_saturates),
    ("D12", "rank", [1], "answer", lambda c: c.gives(T) and word_rank(c.families[0], c.a) > T),
    ("D12", "exprank", [1], "answer", lambda c: c.gives(T) and word_rank("allowed", exponent_word(c.a)) > T),
    ("D11a", "count", [1], "answer", exact_count),
    ("D11b", "rank", [1], "answer", lambda c: c.gives(word_rank(c.families[0], c.a))),
    ("D11c", "canonical", [1], "none", lambda c: len(c.a) > 64 and c.families == ["forbidden"] and len(set(c.a)) < len(c.a)),
    ("D11d", "walk", [1], "answer", walked),
    ("D11d", "walk", [1], "none", walk_ended),
    ("D11e", PERMUTATIONS, [1], "answer", lambda c: any(len(p) > longest(c) for p in lists_of(c)) and c.gives(*permutation_answer(c))),
    ("D11f", SHAPES, [1], "answer", lambda c: len(axes(c)) > 16 and c.gives(*shape_answer(c))),
    ("D22", "digitcount digitsymbol digitconcat", [1], "answer", lambda c: exponent(c) >= CUT and c.gives(*cut_answer(c))),
    ("D11g", DIGITS, [1], "answer",
     lambda c: exponent(c) < CUT and sum(w[1] for w in digit_words(c)) > 64 and c.gives(*digit_answer(c))),
    ("D11h", EXPONENTS, [1], "answer", lambda c: c.gives(*exponent_answer(c))),
    ("D11i", "unrank unrankover expunrank", [1], "answer", unranked),
    ("D21", "unrank unpack strides delinearize digitsymbols expword expfrom expunrank expadd", [8], "answer",
     lambda c: c.room is not None and c.room < len(c.theirs.split())),
    ("D17", "strides", [None, 8], "panic overflow", lambda c: past(c.a) and not past(c.a[:-1])),
    ("D17", "corner", [None], "panic overflow", corner_overflows_past),
    ("D18", "corner", [None], "panic overflow", lambda c: past(c.b[:highest(c.a[0])])),
    ("D28", "shapecount", [None], "panic overflow", lambda c: past(c.a) and 0 in c.a),
    ("D19", "unrank unrankover", [1], "not run D19", any_input),
    ("D19", "unrankany", [3], "not run D19", any_input),
    ("D20", "digitstabilizer", [None, 1, 3, 9], "not run D20", any_input),
    ("D23", "unrank unrankover expunrank digitsymbols digitmultiplicity digitstabilizer digitdelete exprank expword expfrom", [1],
     "not run D23", any_input),
]


# ---- the Rust panics, or has no value: the entry by verb and refusal

# By an assertion of its own, or an index out of bounds.
ASSERTS = {
    "rank": [1, 2], "pack": [1, 2], "canonical": [1], "merge": [1, 6], "symbol": [7], "complement": [1, 6],
    "unrank": [1, 3], "unrankover": [1, 3], "unrankany": [1, 3], "insert": [5, 7], "position": [7], "select": [7],
    "permimage": [1, 7, 10], "permcompose": [1, 8, 10], "perminverse": [1, 10], "permunrank": [3],
    "linearize": [1, 8], "corner": [1, 7], "digits": [1, 7], "digitsymbol": [1, 3, 7, 9], "digitconcat": [1, 3, 8, 9],
    "expfrom": [1, 7], "expunrank": [1, 3], "expadd": [1, 8],
}

# No value, where an enumeration has ended, two sets meet, or the checking constructor of permutations is given no permutation.
NO_VALUE = {"canonical": [5], "merge": [5], "next": [4], "walk": [4], "delete": [7], "digitdelete": [1, 3, 7, 9], "permnext": [1, 4, 10]}


def horner(radices, digits):
    """The largest number on the way, where the radices are multiplied in from the top."""
    x = largest = 0
    for r, d in reversed(list(zip(radices, digits))):
        largest = max(largest, x * r, x * r + d)
        x = x * r + d
    return largest


def power_or_more(radix, degree):
    """radix^degree, or some number of 2^64 or more where it is that."""
    return radix ** min(degree, 64) if radix > 1 else radix ** min(degree, 1)


def runs(bits):
    return [len(run) for run in bin(bits)[2:].split("0")]


def stated(c):
    """The largest number that the Rust forms on the way to its answer, where that is 2^64 or more."""
    v, a, b = c.verb, c.a, c.b
    if v in ("count", "walk", "unrank", "unrankover", "expunrank"):
        n = shifted((c.families + ["allowed"])[0], a[0], a[1])
        return max(n, choose_or_more(n, a[1]))
    if v == "unrankany":
        return LIMIT if a[0] > 64 or a[1] >= comb(64, a[0]) else 0
    if v == "stabilizer":
        return prod(map(factorial, runs(a[0])))
    if v == "rank":
        return word_rank(c.families[0], a)
    if v in ("pack", "canonical"):
        return max(s + i for i, s in enumerate(sorted(a) if v == "canonical" else a)) if c.families == ["allowed"] else 0
    if v == "permrank":
        return max(factorial(len(a) - 1), permutation_answer(c)[0])
    if v == "permnext":
        return factorial(len(a))
    if v == "permunrank":
        return factorial(min(a[0], 21))
    if v in ("shapecount", "strides"):
        return max(partial_products(a))
    if v == "linearize":
        return horner(a, b)
    if v == "corner":
        return max(partial_products(b) + shape_answer(c))
    if v == "digits":
        return horner(a * len(b), b)
    if v == "digitcount":
        return power_or_more(a[0], a[1] % CUT)
    if v == "digitsymbol":
        return power_or_more(a[0], a[3] % CUT)
    if v == "digitmultiplicity":
        return power_or_more(a[0], a[1] - 1)
    if v == "digitdelete":
        return power_or_more(a[0], min(a[3] + 1, a[1]))
    if v == "digitstabilizer":
        return max(power_or_more(a[0], a[1] - 1), prod(factorial(m) for m in digit_multiplicities(*a)))
    if v == "digitconcat":
        stride = power_or_more(a[0], a[1] % CUT)
        return max(stride, a[5] * stride + a[2], a[1] + a[4])
    if v == "exprank":
        return word_rank("allowed", exponent_word(a))
    if v == "expadd":
        return max(x + y for x, y in zip(a, b))
    return 0


def digit_multiplicities(radix, degree, rank):
    digits = taken_apart(rank, [radix] * degree)
    return [digits.count(s) for s in set(digits)]


def zero_radix(c):
    return 0 in c.b if c.verb == "delinearize" else c.a[0] == 0


def stop_of(c):
    if c.outcome in ("panic assertion", "panic bounds"):
        return "D13" if c.refused in ASSERTS.get(c.verb, []) else None
    if c.outcome == "none":
        return "D14" if c.refused in NO_VALUE.get(c.verb, []) else None
    if c.outcome == "panic overflow":
        return "D15" if c.refused is not None and stated(c) >= LIMIT else None
    if c.outcome == "panic zero" and (c.verb == "delinearize" or c.verb in DIGITS.split()):
        return "D16" if c.refused in (1, 3) and zero_radix(c) else None
    return None


RULE_OF = {}
for entry, verbs, refusals, outcome, test in RULES:
    for verb in verbs.split():
        for refusal in refusals:
            RULE_OF.setdefault((verb, refusal, outcome), []).append((entry, test))


def entry_of(c):
    for entry, test in RULE_OF.get((c.verb, c.refused, c.outcome), []):
        if test(c):
            return entry
    return stop_of(c)
