#!/usr/bin/env python3
"""Writes crates/halves_low and crates/halves_high: the columns 2 to 16 and 17 to 32 of Pascal's triangle once more, in two halves each; and
crates/descent_16, descent_32, descent_48 and descent: links for each of the columns, which find a number by halving.

Run it at the repository's root: python3 tools/halves.py. Run again, it changes nothing; nor does `rt fmt` after it.
"""
from math import comb

LAST = 32  # the last column, and how many rows the upper half has


def lower(k):
    """The first row of the lower half of column k: the rows up to 31 that are not 0 and the one below them, filled up to a power of two."""
    rows = 1
    while rows < 33 - k:
        rows *= 2
    return 32 - rows


def whole(k):
    """The crate that has column k in one piece."""
    return "columns_low" if k <= 16 else "columns_high"


def half(name, k, first, rows):
    arms = "".join(f"        {n} => {comb(n, k)},\n" for n in range(first, first + rows))
    return f"""
pub fn {name}_{k}(n: u64) -> u64
    requires {{ n ≤ 64 }}
    ensures {{ result ≡ entry n {k} }}
{{
    match n {{
{arms}        _ => {whole(k)}::column_{k}(n),
    }}
}}
"""


def halves(name, first, last):
    text = f"""// Columns {first} to {last} of Pascal's triangle (DLMF 26.3) in two halves, row n of each holding binomial(n, k): `upper_k` has the rows 32 to 63, `lower_k`
// those of the rows up to 31 that are not 0, and some below them. Made by tools/halves.py. A `match` of so few arms is compiled into its caller, each time
// with those arms alone that can be met there, and so without a test; the whole columns (crates `columns_low` and `columns_high`) are called.
#![tactic(auto)]

ghost use Rattle.std.specs.Prelude.{{◌≡◌, ◌≤◌}};
ghost use Rattle.pascal.specs.Row.{{entry}};
"""
    for k in range(first, last + 1):
        text += half("lower", k, lower(k), 32 - lower(k)) + half("upper", k, 32, 32)
    with open(f"crates/{name}/src/lib.rt", "w", encoding="utf-8") as f:
        f.write(text)


halves("halves_low", 2, 16)
halves("halves_high", 17, LAST)


# Where the rows are cut: once a number is below a cut, all that are sought after it are.
CUTS = (64, 48, 32, 16, 8, 0)
# Where the search may begin, by the alphabet.
STARTS = (8, 16, 64)


# The crate of the links that begin at a cut.
HOME = {8: "descent_16", 16: "descent_16", 32: "descent_32", 48: "descent_48", 64: "descent"}


def columns(k):
    return "halves_low" if k <= 16 else "halves_high"


def from_crate(home, cut, k):
    """The link for k numbers below the cut, as the crate `home` names it."""
    return f"below_{cut}_{k}" if HOME[cut] == home else f"{HOME[cut]}::below_{cut}_{k}"


def window(upto, cut, k):
    """The rows in which a number below upto is sought, if it is not below the cut: those from the cut up, or, where column k holds 0 in all of the
    rows below the cut, as few as have every number, a power of two."""
    if comb(cut, k) != 0:
        return cut, upto - cut
    rows = 1
    while rows < upto - k + 1:
        rows *= 2
    return upto - rows, rows


def function(head, requires, ensures, lines):
    body = "".join(f"    {line}\n" for line in lines)
    return f"""
{head} -> u64
    requires {{ {requires} }}
    ensures {{ {ensures} }}
{{
{body}}}
"""


def link(upto, cut, k):
    """The highest of k numbers below upto, and then the others."""
    lines = []
    if comb(cut, k) != 0:
        lines = [f"if r < {comb(cut, k)} {{", f"    return {from_crate(HOME[upto], cut, k)}(r, below({cut}, {comb(cut, k)}, {k}, {upto}, r, a));", "}"]
    b, n = window(upto, cut, k)
    held = f"{columns(k)}::{'upper' if 32 <= b else 'lower'}_{k}"
    lines += [f"let j = rows({b}, {n}, {comb(b, k)}, {k}, {upto}, r, a);"]
    while 1 < n:
        n //= 2
        lines += [f"let t = middle({b}, {n}, j, {k}, r);", f"let j = half({b}, {n}, j, t, {held}(t), {k}, r);"]
    onward = f"below_{upto}_{k - 1}(" if 2 < k else f"last({upto}, "
    lines += [
        f"let t = {b} + j;",
        f"let c = {held}(t);",
        f"let x = with({b}, j, t, c, {k}, {upto}, r, a);",
        f"{onward}r - c, x)",
    ]
    visible = "fn" if HOME[upto] == "descent" else "pub fn"
    return function(f"{visible} below_{upto}_{k}(r: u64, a: u64)", f"Sought 64 {k} {upto} r a", f"result ≡ a + value {k} r", lines)


def begins(k, upto):
    call = f"{from_crate('descent', upto, k)}(" if 1 < k else f"last({upto}, "
    return f"ended({call}r, begun({upto}, {k}, k, s, r)), {k}, k, r)"


def leaf(k, indent):
    if k == 0:
        return [indent + "empty(k, r)"]
    if k == 1:
        return [indent + begins(1, 64)]
    lines = []
    for upto in STARTS[:-1]:
        if k <= upto:
            lines += [indent + f"if s <= {upto} {{", indent + f"    return {begins(k, upto)};", indent + "}"]
    return lines + [indent + begins(k, STARTS[-1])]


def tree(first, last, indent):
    """The links for k, which is one of first to last, by halving these."""
    if first == last:
        return leaf(first, indent)
    half = (first + last + 1) // 2
    below = tree(first, half - 1, indent + "    ")
    below[-1] = indent + "    return " + below[-1].strip() + ";"
    return [indent + f"if k < {half} {{"] + below + [indent + "}"] + tree(half, last, indent)


def entry():
    lines = tree(0, LAST, "")
    return function("pub fn set(k: u64, s: u64, r: u64)", f"(k ≤ {LAST}) × (s ≤ 64) × (r < entry s k)", "result ≡ value k r", lines)


USED = {
    "descent_16": ("below", "half", "last", "middle", "rows", "with"),
    "descent_32": ("below", "half", "last", "middle", "rows", "with"),
    "descent_48": ("below", "half", "last", "middle", "rows", "with"),
    "descent": ("begun", "below", "empty", "ended", "half", "last", "middle", "rows", "with"),
}


def descent(name):
    cuts = [(upto, cut) for upto, cut in reversed(list(zip(CUTS, CUTS[1:]))) if HOME[upto] == name]
    which = " and ".join(str(upto) for upto, _ in cuts)
    others = {"descent_16": "", "descent": "; those of the lower cuts are in `descent_48`, `descent_32` and `descent_16`"}.get(name, "; those of the lower cuts are in crates of their own")
    text = f"""// The sets of 2 to {LAST} numbers by their rank, each number found by halving its column (document 01, "Terms and their order"). Made by tools/halves.py.
// The rows are cut at 48, 32, 16 and 8. The link `below_s_k` has k numbers of rank r to find, all below the cut s, and a holds those that are found. One
// comparison says whether they are below the next cut too, and then that cut's link takes over, for good. Otherwise the highest is one of the rows between
// the two cuts, at most 16; each comparison halves these, with no branch, and what is left goes to the link for one number fewer.
// Here are the links below {which}{others}.
#![tactic(auto)]

ghost use Rattle.std.specs.Prelude.{{◌≡◌, ◌+◌{", ◌<◌, ◌≤◌" if name == "descent" else ""}}};
"""
    if name == "descent":
        text += "ghost use Rattle.pascal.specs.Row.{entry};\n"
    text += "ghost use Rattle.halving.specs.Search.{value, Sought};\n\n"
    text += f"use halving::{{{', '.join(USED[name])}}};\n"
    for upto, cut in cuts:
        for k in range(2, min(upto, LAST) + 1):
            text += link(upto, cut, k)
    if name == "descent":
        text += "\n// The set of k numbers below s that has the rank r." + entry()
    with open(f"crates/{name}/src/lib.rt", "w", encoding="utf-8") as f:
        f.write(text)


for name in USED:
    descent(name)
