#!/usr/bin/env python3
"""Brings the repository's own definitions, constructors, fields and lemmas to the spelling of the newer kit: words in snake case, types in camel case, a dash only
between two names.

    tools/respell.py            rewrites the files below crates/ (.rt, .antt, .edit), README.md, CHANGELOG.md, CONTRIBUTING.md and docs/, once, after the kit's own script
    tools/respell.py --table    prints the table: the old name, the new name, the files that define it

A name is renamed where it is the repository's own: a definition, a lemma, a constructor, a field or a local name of specs/ or proofs/. shiftedAlphabet becomes
shifted_alphabet; choose-few, in which few is a plain word, becomes choose_few; length-shifted, in which both are names, keeps its dash. It stops where two names
would fall together, or a new name is that of another thing.
"""
import collections
import glob
import os
import re
import sys

WORD = re.compile(r"[^\s(){}\[\].,;:`\"|/\\<>=+*]+")
HEAD = re.compile(r"(?:(?:pub|abbrev|unfoldable)\s+)*(?:(record|data)\s+)?([^\s:(){},.]+)(?=\s+(?:[({:]))")
IMPORT = re.compile(r"^(?:ghost )?use (\S+?)\.\{([^}]*)\}", re.M)


def read(path):
    with open(path, encoding="utf-8") as f:
        return f.read()


def antt(root):
    return sorted(glob.glob(f"{root}/crates/*/specs/**/*.antt", recursive=True) + glob.glob(f"{root}/crates/*/proofs/**/*.antt", recursive=True))


def library(paths):
    """What the files import from elsewhere than this repository."""
    found = set()
    for path in paths:
        for module, names in IMPORT.findall(read(path)):
            if not module.startswith("Rattle.") or module.startswith("Rattle.std."):
                for part in names.split(","):
                    found.update(part.replace(" as ", " ").split())
    return found


def own(paths):
    """The names that the files define: the top of a file, fields, constructors and local names. Those of a proof's answers are the kit's."""
    defined = collections.defaultdict(set)
    for path in paths:
        proof = path.endswith("/Proof.antt")
        inside = False
        for line in read(path).split("\n"):
            if line.startswith(("use ", "--", "mod ", "pub mod ")):
                continue
            for local in re.findall(r"\blet ([^\s:=(){},]+)", line):
                defined[local].add(path)
            if line and not line[0].isspace():
                m = HEAD.match(line)
                inside = bool(m and m.group(1))
                if m and not (proof and re.search(r":\s.*\btie\.", line)):
                    defined[m.group(2)].add(path)
            elif inside:
                m = re.match(r"  (?:pub )?([^\s:(){}]+(?:,? [^\s:(){}]+)*) :", line)
                if m:
                    for name in re.split(r"[ ,]+", m.group(1)):
                        defined[name].add(path)
    return defined


def snake(word):
    return re.sub(r"(?<=[a-z0-9A-Z])([A-Z])", lambda m: "_" + m.group(1).lower(), word)


def renamed(name, names):
    """The name in the newer spelling. A part that begins with a capital is a type, and keeps it."""
    parts = name.split("-")
    if not all(parts):
        return name
    joint = "-" if all(part in names for part in parts) else "_"
    return joint.join(part if part[0].isupper() else snake(part) for part in parts)


def table(root):
    paths = antt(root)
    there = library(paths)
    defined = own(paths)
    for path in paths + sorted(glob.glob(f"{root}/crates/*/src/**/*.rt", recursive=True)):
        for other in re.findall(r"[{ ,]as ([a-z]\w*[A-Z]\w*)", read(path)):
            defined[other].add(path)  # another name that a file gives what it imports
    names = {n for n in defined if "-" not in n} | {n for n in there if "-" not in n and "_" not in n}
    # what a lemma is about is a name; what it says of it (is, of, all) is a plain word, also where a definition is called so
    names -= PLAIN
    to = {}
    for name in sorted(defined):
        if name in OTHERS:
            to[name] = OTHERS[name]
            continue
        if name[0].isupper() and "-" not in name or name in there:
            continue
        new = renamed(name, names)
        if new != name:
            to[name] = new
    back = collections.defaultdict(list)
    for old, new in to.items():
        back[new].append(old)
    wrong = [f"{olds} would all be {new}" for new, olds in back.items() if len(olds) > 1]
    wrong += [f"{olds[0]} would be {new}, which is there" for new, olds in back.items() if new in defined and new not in to]
    wrong += [f"{olds[0]} would be {new}, which a library has" for new, olds in back.items() if new in there]
    return to, defined, wrong


# Words that say something of a name, though a definition or a library's name is spelled so.
PLAIN = {
    "is", "of", "all", "none", "some", "any", "at", "in", "to", "from", "by", "as", "no", "not", "two", "one", "and", "or", "after", "before", "below", "above", "first",
    "last", "next", "more", "less", "rest", "left", "right", "both", "same", "given", "gives", "holds", "fits", "up", "down", "over", "under", "within", "apart", "it",
    "short", "long", "there", "then", "else", "with", "without", "that", "when", "where", "turn", "step", "end", "ends", "here", "again", "most", "least", "once",
    "n", "k", "m", "i", "j", "a", "b", "x", "y", "z", "p", "q", "r", "s", "t", "w", "c", "e", "f", "g", "h", "l", "v", "u",
}


# Names that would fall together with another: a lemma that would have its function's name gets _lem.
OTHERS = {
    "absent-from": "absent_from_lem",
    "break-from": "break_from_lem",
    "left-first": "left_first_lem",
    "left-from": "left_from_lem",
    "longest-line": "longest_line_lem",
    "next-bits": "next_bits_lem",
    "next-says": "next_says_lem",
    "ones-from": "ones_from_lem",
    "rank-of-word": "rank_of_word_lem",
    "right-first": "right_first_lem",
    "spelled-from": "spelled_from_lem",
    "too-big": "too_big_lem",
    "rank-of": "rank_of_lem",
    "sign-of": "sign_of_lem",
    "table-at": "table_at_lem",
    "raised_at": "raised_at_lem",
    "too_long": "too_long_lem",
    "byRank": "gives_by_rank",
    "rankBelow": "rank_up_to",
}


def reword(text, to):
    def one(m):
        word = m.group(0)
        if word in to:
            return to[word]
        return word

    return WORD.sub(one, text)


def main(argv):
    root = os.path.dirname(os.path.dirname(os.path.abspath(__file__)))
    if argv not in ([], ["--table"]):
        sys.stderr.write(__doc__)
        return 2
    to, defined, wrong = table(root)
    if argv:
        for old in sorted(to):
            print(old, to[old], " ".join(sorted(os.path.relpath(p, root) for p in defined[old])), sep="\t")
        return 0
    if wrong:
        print("\n".join(wrong))
        return 1
    changed = 0
    for path in antt(root) + sorted(glob.glob(f"{root}/crates/*/src/**/*.rt", recursive=True)) + sorted(glob.glob(f"{root}/crates/*/must-fail/*.edit")):
        text = read(path)
        lines = []
        for line in text.split("\n"):
            if path.endswith(".edit") and not line.startswith(("old:", "new:")):
                lines.append(line)
            else:
                lines.append(reword(line, to))
        new = "\n".join(lines)
        if new != text:
            changed += 1
            with open(path, "w", encoding="utf-8") as f:
                f.write(new)
    for path in [f"{root}/{n}.md" for n in ("README", "CHANGELOG", "CONTRIBUTING")] + sorted(glob.glob(f"{root}/docs/**/*.md", recursive=True)):
        text = read(path)
        new = re.sub(r"`[^`\n]+`", lambda m: reword(m.group(0), to), text)
        if new != text:
            changed += 1
            with open(path, "w", encoding="utf-8") as f:
                f.write(new)
    print(f"{changed} files, {len(to)} names")
    return 0


if __name__ == "__main__":
    sys.exit(main(sys.argv[1:]))
