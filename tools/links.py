#!/usr/bin/env python3
"""Writes crates/links: a link for each of the first 32 positions of a set.

Run it at the repository's root: python3 tools/links.py. Run again, it changes nothing; nor does `rt fmt` after it.
"""
import sys

LINKS = 32


def link(i):
    columns = "columns_low" if i < 16 else "columns_high"
    onward = f"from_{i + 1}" if i + 1 < LINKS else f"after_{LINKS}"
    return f"""
{"" if i else "pub "}fn from_{i}(a: u64, sum: u64) -> u64
    requires {{ Weighs {i} a sum }}
    ensures {{ result ≡ sum + weight {i} a }}
{{
    if a == 0 {{
        return nothing(a, {i}, sum);
    }}
    {onward}(a & (a - 1), sum + {columns}::column_{i + 1}(lowest(a, {i})))
}}
"""


if sys.argv[1:]:
    asked = sys.argv[1:] in (["-h"], ["--help"])
    print(__doc__.strip(), file=sys.stdout if asked else sys.stderr)
    sys.exit(0 if asked else 2)
text = f"""// What the numbers of a set weigh, from each of the first {LINKS} positions up (document 01, "Terms and their order"). Made by tools/links.py.
// A link weighs the lowest number by the column of its own position, and hands the rest of the set and the sum so far to the next.
#![tactic(auto)]

ghost use Rattle.std.specs.Prelude.{{◌≡◌, ◌+◌}};
ghost use Rattle.links.specs.Weight.{{weight, Weighs}};

mod step; // step.rt: the lowest number of a set, and the ends of the chain

use step::{{after_{LINKS}, lowest, nothing}};
"""
with open("crates/links/src/lib.rt", "w", encoding="utf-8") as f:
    f.write(text + "".join(link(i) for i in range(LINKS)))
