#!/usr/bin/env python3
"""Writes crates/triangle/specs/Parts.antt, crates/triangle_low and crates/triangle_high: the first and the last 512 of the 1024 cells of Pascal's triangle, as crates/triangle lists
them, in parts of 64.

Run it at the repository's root: python3 tools/triangle.py. Run again, it changes nothing; nor does `rt fmt` after it.
"""
import sys
from math import comb

ROWS = 64
ARMS = 64
PARTS = 8
CELLS = [comb(n, k) for n in range(ROWS + 1) for k in range(1, n // 2 + 1)]


def part(t):
    arms = "".join(f"        {i} => {CELLS[t * ARMS + i]},\n" for i in range(ARMS))
    return f"""
pub fn part_{t}(i: u64) -> u64
    requires {{ i < {ARMS} }}
    ensures {{ result ≡ cell_of {t} i }}
{{
    match i {{
{arms}        _ => triangle::cell({t}, i),
    }}
}}
"""


def crate(name, first):
    last = first + PARTS - 1
    text = f"""// The parts {first} to {last} of the list of cells of Pascal's triangle (crates/triangle), {ARMS} cells each. Made by tools/triangle.py. Each `match` compiles to one table.
#![tactic(auto)]

ghost use Rattle.std.specs.Prelude.{{◌≡◌, ◌<◌}};
ghost use Rattle.triangle.specs.Cells.{{cell_of}};
"""
    with open(f"crates/{name}/src/lib.rt", "w", encoding="utf-8") as f:
        f.write(text + "".join(part(t) for t in range(first, last + 1)))


def specs():
    text = f"""-- The cells of Pascal's triangle, in parts of {ARMS}. Made by tools/triangle.py; `cell_is_entry` says that they are the coefficients. Assumes nothing.
use Rattle.std.specs.Prelude.{{List, [], ◌∷◌, ℕ}}
"""
    for t in range(2 * PARTS):
        text += f"\nabbrev pub part{t} : List ℕ\npart{t} =\n"
        text += "".join("    " + "".join(f"{c} ∷ " for c in CELLS[i : i + 8]).rstrip() + "\n" for i in range(t * ARMS, (t + 1) * ARMS, 8))
        text += "    []\n"
    text += "\nabbrev pub parts : List (List ℕ)\nparts = " + "".join(f"part{t} ∷ " for t in range(2 * PARTS)) + "[]\n"
    with open("crates/triangle/specs/Parts.antt", "w", encoding="utf-8") as f:
        f.write(text)


if sys.argv[1:]:
    asked = sys.argv[1:] in (["-h"], ["--help"])
    print(__doc__.strip(), file=sys.stdout if asked else sys.stderr)
    sys.exit(0 if asked else 2)
specs()
crate("triangle_low", 0)
crate("triangle_high", PARTS)
