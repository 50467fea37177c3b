#!/usr/bin/env python3
"""Writes a large straight-line program that keeps its locks, with its rule file and certificate.

    straight.py DIR [LINES] [entry|entries|faults|globals]      60,000 lines and one entry a routine, unless said

The lines stand in routines P1.m, P2.m and so on, of 16,000 lines at most, so that none passes 1 MiB.
entry: one entry of each routine runs all its lines. entries: each line is an entry of its own. faults: as entry, and
each line has a fault. globals: as entry, and the lines write 1,024 globals in turn, each with a cover rule of its own.
"""
import argparse
import pathlib

RULES = """[[lock]]
name = "^ACCT"
rank = 10
[[cover]]
global = "^ACCT(id,...)"
lock = "^ACCT(id)"
"""
TAKE = "LOCK +^ACCT(1) SET ^ACCT(1)=5 LOCK -^ACCT(1)"
GLOBALS = 1024
MOST = 16000
LATE = "SET ^ACCT(1)=5 LOCK +^ACCT(1) LOCK -^ACCT(1)"
HEAD = "need -\nlow 10\ndrops 0\nmods -\nexit T=* H=- K=-\n"


def point(line):
    return f"at {line}.0 T=* H=- O=- K=- S=-\n"


def taken(name):
    return f"LOCK +^{name}(1) SET ^{name}(1)=5 LOCK -^{name}(1)"


def rule(name):
    return f'[[cover]]\nglobal = "^{name}(id,...)"\nlock = "^{name}(id)"\n'


def written(kind, number, count):
    """The lines of a routine of this number, its entries, and their blocks."""
    body = LATE if kind == "faults" else TAKE
    if kind == "entries":
        lines = [f"E{n} {body} QUIT" for n in range(1, count + 1)]
        names = [f"E{n}^P{number}" for n in range(1, count + 1)]
        return lines, names, "".join(f"entry {name}\n{HEAD}{point(n)}" for n, name in enumerate(names, 1))
    if kind == "globals":
        bodies = [taken(f"G{n % GLOBALS}") for n in range(count - 1)]
    else:
        bodies = [body] * (count - 1)
    lines = [f"TAKE {bodies[0]}"] + [f" {b}" for b in bodies[1:]] + [" QUIT"]
    name = f"TAKE^P{number}"
    return lines, [name], f"entry {name}\n{HEAD}" + "".join(point(n) for n in range(1, count + 1))


def main():
    parser = argparse.ArgumentParser(description=__doc__, formatter_class=argparse.RawDescriptionHelpFormatter)
    parser.add_argument("folder", metavar="DIR", type=pathlib.Path)
    parser.add_argument("count", metavar="LINES", type=int, nargs="?", default=60000)
    parser.add_argument("kind", choices=["entry", "entries", "faults", "globals"], nargs="?", default="entry")
    words = parser.parse_args()
    folder, left = words.folder, words.count
    folder.mkdir(parents=True, exist_ok=True)
    rules = "".join(rule(f"G{n}") for n in range(GLOBALS)) if words.kind == "globals" else RULES
    declared, blocks, number = [], [], 0
    while left > 0:
        number += 1
        count = min(left, MOST)
        left -= count
        lines, names, block = written(words.kind, number, count)
        (folder / f"P{number}.m").write_text("".join(line + "\n" for line in lines))
        declared += names
        blocks.append(block)
    entries = "".join(f'[[entry]]\nlabel = "{name}"\n' for name in declared[:1000])
    (folder / "rules.toml").write_text(rules + entries)
    (folder / "cert").write_text("mlock-cert 1\n" + "".join(blocks) + "end\n")


main()
