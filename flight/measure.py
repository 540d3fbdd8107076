#!/usr/bin/env python3
"""Reads the disassembly of the static library and says, for each export, how deep its stack goes, how many functions it may call,
and how many instructions that only trap are in it and in those.

    flight/measure.py ARCHIVE

The depth is a bound, not a reading: each function's frame (what it pushes and takes off the stack pointer), the return address of each call,
and the deepest callee. It refuses to answer, with status 1, where that would not be a bound: an indirect call, a cycle of calls, a stack
pointer moved by anything but a constant or in a loop, or a callee outside the archive other than those of the C library that it names.
"""
import re
import subprocess
import sys

# Called from the archive, and not part of it. They are leaves of the C library; a frame of theirs is not counted.
OUTSIDE = {"memcpy", "memset", "memmove", "memcmp"}

# Instructions that do nothing but end the program.
TRAPS = {"ud0", "ud1", "ud2", "int3", "hlt"}


def output(*command):
    return subprocess.run(command, check=True, capture_output=True, text=True).stdout


class Function:
    def __init__(self, name):
        self.name = name
        self.frame = 0
        self.size = 0
        self.traps = 0
        self.calls = set()
        self.tails = set()


def read(archive):
    """Every function of the archive, by name."""
    functions, here, pending = {}, None, None
    for line in output("objdump", "-dr", "--no-show-raw-insn", "-C", archive).splitlines():
        head = re.match(r"^[0-9a-f]+ <(.*)>:$", line)
        if head:
            here = functions.setdefault(head.group(1), Function(head.group(1)))
            pushed, moved = 0, 0
            continue
        if here is None:
            continue
        reloc = re.match(r"^\s+[0-9a-f]+: R_X86_64_(PLT32|PC32)\s+(.*?)(-0x4)?$", line)
        if reloc:
            if pending is not None:
                target = re.sub(r"^\.text\.", "", reloc.group(2))
                (here.calls if pending == "call" else here.tails).add(target)
            pending = None
            continue
        code = re.match(r"^\s+([0-9a-f]+):\s+(\S+)\s*(.*)$", line)
        if not code:
            continue
        at, op, args = int(code.group(1), 16), code.group(2), code.group(3)
        here.size = max(here.size, at + 1)
        here.traps += op in TRAPS
        pending = None
        if op in ("call", "callq"):
            if args.startswith("*"):
                sys.exit(f"measure: {here.name} calls through a pointer")
            pending = "call"
        elif op in ("jmp", "jmpq") and not args.startswith("*") or op.startswith("j") and op not in ("jmp", "jmpq"):
            pending = "tail"
        elif op == "push":
            pushed += 8
        elif op == "sub" and args.endswith(",%rsp"):
            amount = re.match(r"^\$(0x[0-9a-f]+),%rsp$", args)
            if not amount:
                sys.exit(f"measure: {here.name} moves its stack pointer by no constant: {args}")
            moved += int(amount.group(1), 16)
        elif op == "cmp" and re.search(r"(?<!\()%rsp", args):
            sys.exit(f"measure: {here.name} moves its stack pointer in a loop, as for a frame of many pages: {op} {args}")
        elif args.endswith(",%rsp") and op not in ("add", "cmp", "test", "lea", "mov"):
            sys.exit(f"measure: {here.name} changes its stack pointer: {op} {args}")
        here.frame = max(here.frame, pushed + moved)
    return functions


def deepest(functions, name, above=()):
    """The bytes of stack below the return address of a call of name."""
    if name in OUTSIDE:
        return 0
    if name in above:
        sys.exit("measure: a cycle of calls: " + " -> ".join(above + (name,)))
    if name not in functions:
        sys.exit(f"measure: {name} is not in the archive")
    f = functions[name]
    depth = f.frame
    for callee in f.calls:
        depth = max(depth, f.frame + 8 + deepest(functions, callee, above + (name,)))
    for callee in f.tails - {name}:
        if callee in functions or callee in OUTSIDE:
            depth = max(depth, f.frame + deepest(functions, callee, above + (name,)))
    return depth


def reached(functions, name, found):
    if name in OUTSIDE or name in found or name not in functions:
        return found
    found.add(name)
    for callee in functions[name].calls | functions[name].tails:
        reached(functions, callee, found)
    return found


def sections(archive):
    """The bytes of code, of constants, and of what could be written."""
    code = constants = writable = 0
    for line in output("objdump", "-h", archive).splitlines():
        part = re.match(r"^\s*\d+ (\S+)\s+([0-9a-f]{8})", line)
        if part:
            name, size = part.group(1), int(part.group(2), 16)
            code += size if name.startswith(".text") else 0
            constants += size if name.startswith((".rodata", ".data.rel.ro")) else 0
            writable += size if re.match(r"^\.(data|bss|tdata|tbss)(\.(?!rel\.ro)|$)", name) else 0
    return code, constants, writable


def main():
    if sys.argv[1:] in (["-h"], ["--help"]):
        print(__doc__.strip())
        return
    if len(sys.argv) != 2:
        print(__doc__.strip(), file=sys.stderr)
        sys.exit(2)
    archive = sys.argv[1]
    functions = read(archive)
    undefined = sorted(line.split()[-1] for line in output("nm", "-u", archive).splitlines() if " U " in line)
    strange = [name for name in undefined if name not in OUTSIDE]
    if strange:
        sys.exit("measure: the archive asks for " + ", ".join(strange))
    code, constants, writable = sections(archive)
    print(f"functions\t{len(functions)}")
    print(f"code bytes\t{code}")
    print(f"constant bytes\t{constants}")
    print(f"writable bytes\t{writable}")
    print(f"trap instructions\t{sum(f.traps for f in functions.values())}")
    print(f"asked of the C library\t{' '.join(undefined) or 'nothing'}")
    for name in sorted(functions):
        if name.startswith("gudrenoss_"):
            inside = reached(functions, name, set())
            print(f"{name}\t{deepest(functions, name)}\t{len(inside) - 1}\t{sum(functions[f].traps for f in inside)}")
    if writable:
        sys.exit("measure: the archive has data that can be written")


if __name__ == "__main__":
    main()
