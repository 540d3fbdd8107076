#!/usr/bin/env python3
"""Writes crates/wide_columns_low and crates/wide_columns_high: the columns 1 to 8 and 9 to 33 of Pascal's triangle, of each the rows from 65 to 128
whose entry is below 2^64, as far as the middle of the row.

Run it at the repository's root: python3 tools/wide_columns.py. Run again, it changes nothing; nor does `rt fmt` after it. It says how many entries there are.
"""
import sys
from math import comb

FIRST, LAST, CAP = 65, 128, 2**64


def rows(k):
    return [n for n in range(FIRST, LAST + 1) if 2 * k <= n and comb(n, k) < CAP]


def column(k):
    arms = "".join(f"        {n} => {comb(n, k)},\n" for n in rows(k))
    return f"""
pub fn column_{k}(n: u64) -> u64
    requires {{ n ≤ {LAST} }}
    ensures {{ result ≡ capped_entry n {k} }}
{{
    match n {{
{arms}        _ => wide_pascal::along(n, {k}),
    }}
}}
"""


def crate(name, first, last):
    text = f"""// Columns {first} to {last} of Pascal's triangle (DLMF 26.3), rows {FIRST} to {LAST} as far as an entry is below 2^64, row n of column k holding binomial(n, k). Made by
// tools/wide_columns.py. Each `match` compiles to one table; another row goes along it. A row above {LAST} is kept out by the caller.
#![tactic(auto)]

ghost use Rattle.std.specs.Prelude.{{◌≡◌, ◌≤◌}};
ghost use Rattle.wide_pascal.specs.Capped.{{capped_entry}};
"""
    with open(f"crates/{name}/src/lib.rt", "w", encoding="utf-8") as f:
        f.write(text + "".join(column(k) for k in range(first, last + 1)))
    return sum(len(rows(k)) for k in range(first, last + 1))


if sys.argv[1:]:
    asked = sys.argv[1:] in (["-h"], ["--help"])
    print(__doc__.strip(), file=sys.stdout if asked else sys.stderr)
    sys.exit(0 if asked else 2)
print(crate("wide_columns_low", 1, 8) + crate("wide_columns_high", 9, 33), "entries")
