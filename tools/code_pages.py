#!/usr/bin/env python3
"""Writes what the documents say of codes, from the pages in crates/mlk_code_pages.

    code_pages.py PROGRAM            writes the sentences below
    code_pages.py PROGRAM --check    compares them, and ends with status 1 where one differs

The table of docs/guide/CODES.md has the meaning of each code, before a link if there is one; its paragraphs on refusals of
routines, and those of docs/guide/FAULTS.md, begin with why it matters and what mends it; the table of docs/reference/CHECK.md
has what mends a fault. An example of a page is one of the document's too. PROGRAM prints the same pages with `explain`.
"""
import pathlib
import re
import subprocess
import sys
import typing

TOP = pathlib.Path(__file__).resolve().parent.parent
PAGES = 'crates/mlk_code_pages/src'
TEXTS = ('meaning', 'hint', 'why', 'mend', 'before', 'after')


class Page(typing.NamedTuple):
    """What a code says, with its number and its word."""

    number: int
    word: str
    meaning: str
    hint: str
    why: str
    mend: str
    before: str
    after: str


def literal(text):
    """The value of a literal of the code, between its quotes."""
    text = re.sub(r'\\\n\s*', '', text)
    return re.sub(r'\\(.)', lambda it: {'n': '\n', 't': '\t'}.get(it[1], it[1]), text)


def codes():
    """The number and the word of each code, by its variant."""
    text = (TOP / 'crates/mlk_text/src/code.rt').read_text()
    words = dict(re.findall(r'Code::(\w+) => b"(\w+)"', text))
    return {name: (int(number), words[name]) for name, number in re.findall(r'^    (\w+) = (\d+),$', text, re.MULTILINE)}


def pages():
    """All pages in the order of their codes."""
    known, found = codes(), {}
    for path in sorted((TOP / PAGES).glob('*.rt')):
        for block in re.findall(r'^pub\(crate\) static \w+: Page = Page \{\n(.*?)^\};', path.read_text(), re.MULTILINE | re.DOTALL):
            name, = re.findall(r'code: Code::(\w+),', block)
            values = {it: re.search(rf'^    {it}:\s+"((?:[^"\\]|\\.)*)",', block, re.MULTILINE | re.DOTALL) for it in TEXTS}
            if name in found or not all(values.values()):
                sys.exit(f'{path.name}: the page of {name} is there twice, or a text is missing')
            found[name] = Page(*known[name], *(literal(values[it][1]) for it in TEXTS))
    if set(found) != set(known):
        sys.exit(f'no page: {sorted(set(known) - set(found))}')
    return sorted(found.values())


def heading(page):
    return f'**{page.number} {page.word}.**'


def made_of(all_pages):
    """The documents as they must be, by their paths."""
    codes_text, faults, check = ((TOP / it).read_text() for it in ('docs/guide/CODES.md', 'docs/guide/FAULTS.md', 'docs/reference/CHECK.md'))
    for page in all_pages:
        start = re.escape(heading(page))
        paragraph = f'{heading(page)} {page.why} {page.mend}'
        codes_text = re.sub(rf'^\| {page.number} \| .*?( \(\[[^|]*\))? \|$', lambda found, it=page: f'| {it.number} | {it.word} | {it.meaning}{found[1] or ""} |', codes_text, flags=re.MULTILINE)
        codes_text = re.sub(rf'^{start} .*$', lambda _, it=paragraph: it, codes_text, flags=re.MULTILINE)
        faults = re.sub(rf'^{start} .*$', lambda _, it=paragraph: it, faults, flags=re.MULTILINE)
        check = re.sub(rf'^\| {page.number} \w+ \| .*$', lambda _, it=page: f'| {it.number} {it.word} | {it.mend} |', check, flags=re.MULTILINE)
    return {'docs/guide/CODES.md': codes_text, 'docs/guide/FAULTS.md': faults, 'docs/reference/CHECK.md': check}


def section(text, page):
    """What a document says from a code's paragraph on, up to the next code's."""
    _, found, rest = text.partition(heading(page))
    return re.split(r'^(?:\*\*\d{3} |## )', rest, maxsplit=1, flags=re.MULTILINE)[0] if found else None


def left_out(all_pages, made):
    """What a document does not have of the pages."""
    for page in all_pages:
        if f'| {page.number} | {page.word} | {page.meaning}' not in made['docs/guide/CODES.md']:
            yield f'docs/guide/CODES.md: no row for {page.number}'
        name = 'docs/guide/FAULTS.md' if 700 < page.number < 800 else 'docs/guide/CODES.md'
        if not (page.number < 400 or 700 < page.number < 800):
            continue
        text = section(made[name], page)
        if text is None:
            yield f'{name}: no paragraph for {page.number}'
            continue
        if '```' not in text:
            continue
        shown = page.before if page.number < 400 else f'{page.before}\n{page.after}'
        for line in shown.split('\n'):
            if line not in text:
                yield f'{name}: {page.number} has no example with: {line}'
        if page.number > 700 and f'| {page.number} {page.word} | ' not in made['docs/reference/CHECK.md']:
            yield f'docs/reference/CHECK.md: no row for {page.number}'


def printed(program, word):
    done = subprocess.run([program, 'explain', word], stdin=subprocess.DEVNULL, stdout=subprocess.PIPE, stderr=subprocess.PIPE,
                          timeout=60, check=False)
    return done.returncode, ' '.join(done.stdout.decode().split())


def unprinted(all_pages, program):
    """What the program does not print of the pages."""
    for page in all_pages:
        for word in (str(page.number), page.word, page.word.lower()):
            status, text = printed(program, word)
            said = [f'{page.number} {page.word}: {page.meaning}', page.why, page.mend, page.before, page.after]
            for it in said:
                if status != 0 or ' '.join(it.split()) not in text:
                    yield f'mlock explain {word}: status {status}, or not printed: {it}'
    for word in ('700', 'NoSuchName', '', '65536'):
        if printed(program, word)[0] != 2:
            yield f'mlock explain {word!r}: not refused'


def main():
    if len(sys.argv) not in (2, 3) or sys.argv[2:] not in ([], ['--check']):
        sys.exit(__doc__)
    all_pages = pages()
    made = made_of(all_pages)
    differing = [it for it, text in made.items() if (TOP / it).read_text() != text]
    if not sys.argv[2:]:
        for name, text in made.items():
            (TOP / name).write_text(text)
        differing = []
    wrong = [*left_out(all_pages, made), *unprinted(all_pages, str(pathlib.Path(sys.argv[1]).resolve()))]
    wrong += [f'{it}: not what {PAGES} says; to make it anew: python3 tools/code_pages.py {sys.argv[1]}' for it in differing]
    print(*wrong, sep='\n', end='\n' if wrong else '')
    print(f'pages of codes: {len(all_pages)} passed, {len(wrong)} failed')
    return 1 if wrong else 0


if __name__ == '__main__':
    sys.exit(main())
