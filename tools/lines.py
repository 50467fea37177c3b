#!/usr/bin/env python3
"""Prints the table of lines of each crate, as docs/internals/FIGURES.md has it."""
import pathlib

TOP = pathlib.Path(__file__).resolve().parent.parent


def lines(crate, part, ending):
    return sum(len(it.read_text().splitlines()) for it in (crate / part).rglob(f'*.{ending}'))


print('| Crate | Code | Definitions | Proofs | Wrong bodies in the gate (more by `./edits`) |\n| --- | --- | --- | --- | --- |')
for entry in (TOP / 'crates.txt').read_text().splitlines():
    name = entry.split(':')[0].split()[0]
    crate = TOP / 'crates' / name
    if name.endswith(('_tests', '_cases')):
        continue
    wrong = [len(list(folder.glob('*.edit'))) for folder in (crate / 'must-fail', TOP / 'wrong-bodies' / name)]
    more = f' ({wrong[1]})' if wrong[1] else ''
    print(f"| `{name}` | {lines(crate, 'src', 'rt'):,} | {lines(crate, 'specs', 'antt'):,} | {lines(crate, 'proofs', 'antt'):,} | {wrong[0]}{more} |")
