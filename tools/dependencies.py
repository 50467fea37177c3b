#!/usr/bin/env python3
"""Checks the lines of crates.txt: a library lists what its sources name, and nothing else. (A program or a crate of tests may
list more: it also frees values of types that it does not name.)
"""
import pathlib
import re
import sys

TOP = pathlib.Path(__file__).resolve().parent.parent


def listed():
    """What each crate lists, in the order of crates.txt."""
    lines = [it.partition(':') for it in (TOP / 'crates.txt').read_text().splitlines()]
    return {name.split()[0]: used.split() for name, _, used in lines}


def sources(crate):
    """The texts of a crate's code, definitions and proofs."""
    for part in ('src', 'specs', 'proofs'):
        for file in (TOP / 'crates' / crate / part).rglob('*'):
            if file.suffix in ('.rt', '.antt'):
                yield file.read_text(encoding='utf-8')


def named(crate):
    """The words of a crate's sources, but for those in comments."""
    lines = (line for text in sources(crate) for line in text.splitlines())
    return {word for line in lines if not line.lstrip().startswith(('//', '--')) for word in re.findall(r'\w+', line)}


def is_program(crate):
    return (TOP / 'crates' / crate / 'src' / 'main.rt').exists()


def wrong_lines(crates):
    """What is wrong with the lines of libraries."""
    for crate, used in crates.items():
        if is_program(crate) or crate.endswith('_tests'):
            continue
        words = named(crate)
        yield from (f'{crate} lists {it}, which its sources do not name' for it in used if it not in words)
        yield from (f'{crate} names {it}, which it does not list' for it in crates if it in words and it not in (crate, *used) and not is_program(it))


def main():
    crates = listed()
    wrong = list(wrong_lines(crates))
    for it in wrong:
        print(it)
    print(f'crates.txt: {len(crates)} passed, {len(wrong)} failed')
    return 1 if wrong else 0


if __name__ == '__main__':
    sys.exit(main())
