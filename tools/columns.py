#!/usr/bin/env python3
"""Writes crates/columns_low and crates/columns_high: the columns 1 to 16 and 17 to 32 of Pascal's triangle, rows 0 to 64 of each.

Run it at the repository's root: python3 tools/columns.py. Run again, it changes nothing; nor does `rt fmt` after it.
"""
import sys
from math import comb

ROWS = 64


def column(k):
    arms = "".join(f"        {n} => {comb(n, k)},\n" for n in range(ROWS + 1))
    return f"""
pub fn column_{k}(n: u64) -> u64
    requires {{ n ≤ {ROWS} }}
    ensures {{ result ≡ entry n {k} }}
{{
    match n {{
{arms}        _ => pascal::recurrence(n, {k}),
    }}
}}
"""


def crate(name, first, last):
    text = f"""// Columns {first} to {last} of Pascal's triangle (DLMF 26.3), row n of column k holding binomial(n, k). Made by tools/columns.py.
// Each `match` compiles to one table. A row above {ROWS} has no entry here, and the caller keeps it out, since a test would cost as much as the look-up.
#![tactic(auto)]

ghost use Rattle.std.specs.Prelude.{{◌≡◌, ◌≤◌}};
ghost use Rattle.pascal.specs.Row.{{entry}};
"""
    with open(f"crates/{name}/src/lib.rt", "w", encoding="utf-8") as f:
        f.write(text + "".join(column(k) for k in range(first, last + 1)))


if sys.argv[1:]:
    asked = sys.argv[1:] in (["-h"], ["--help"])
    print(__doc__.strip(), file=sys.stdout if asked else sys.stderr)
    sys.exit(0 if asked else 2)
crate("columns_low", 1, 16)
crate("columns_high", 17, 32)
