#!/usr/bin/env python3
"""Looks whether the links of the documents lead somewhere.

    links.py

The documents are the Markdown files at the top, in examples/ and below docs/. A link to a file must name one of the repository, and a link
to a heading, after `#`, one of that document. A path in back quotes that begins with the name of a crate, of a folder at the
top, or with `crates/`, and that ends in `.antt`, `.rt`, `.py`, `.m` or `.toml`, must be a file too. Nothing on the network is
asked for.
"""
import pathlib
import re
import sys

TOP = pathlib.Path(__file__).resolve().parent.parent
LINK = re.compile(r'\[[^\]]*\]\(([^)\s]+)\)')
PATH = re.compile(r'`([A-Za-z_][\w.-]*(?:/[\w.^-]+)+\.(?:antt|rt|py|m|toml))`')
FENCED = re.compile(r'^```.*?^```', re.MULTILINE | re.DOTALL)


def documents():
    return [*sorted(TOP.glob('*.md')), *sorted((TOP / 'examples').glob('*.md')), *sorted((TOP / 'docs').rglob('*.md'))]


def prose(text):
    """A document without its blocks between lines of three backquotes, whose lines stay empty."""
    return FENCED.sub(lambda found: '\n' * found.group().count('\n'), text)


def anchors(text):
    """The words by which links name a document's headings."""
    found = set()
    for heading in re.findall(r'^#+ +(.*?) *$', prose(text), re.MULTILINE):
        heading = LINK.sub(lambda it: it.group().split(']')[0][1:], heading)
        word = re.sub(r'[^\w\- ]', '', heading.lower()).replace(' ', '-')
        more, count = word, 0
        while more in found:
            count += 1
            more = f'{word}-{count}'
        found.add(more)
    return found


def wrong_link(path, target):
    """Why a link of a document leads nowhere, or nothing."""
    if re.match(r'[a-z]+:', target):
        return None
    name, _, anchor = target.partition('#')
    to = (path.parent / name).resolve() if name else path
    if not to.exists():
        return f'no file {target}'
    if anchor and anchor not in anchors(to.read_text()):
        return f'no heading {target}'
    return None


def wrong_path(name):
    """Why a path in back quotes is none, or nothing."""
    first = name.split('/')[0]
    if first in ('crates', 'docs', 'examples', 'tools', 'bench', 'wrong-bodies'):
        found = (TOP / name).exists()
    elif (TOP / 'crates' / first).is_dir():
        found = (TOP / 'crates' / name).exists()
    else:
        return None
    return None if found else f'no file {name}'


def main():
    looked = failed = 0
    for path in documents():
        for number, line in enumerate(prose(path.read_text()).split('\n'), 1):
            wrongs = [wrong_link(path, it) for it in LINK.findall(line)] + [wrong_path(it) for it in PATH.findall(line)]
            looked += len(wrongs)
            for wrong in filter(None, wrongs):
                failed += 1
                print(f'{path.relative_to(TOP)}:{number}: {wrong}')
    print(f'links of the documents: {looked - failed} passed, {failed} failed')
    return 1 if failed or not looked else 0


if __name__ == '__main__':
    sys.exit(main())
