#!/usr/bin/env python3
"""Writes what is made of the program's --help: the manual page, completions for shells, and the texts themselves.

    manual.py PROGRAM            writes docs/mlock.1, docs/help.txt and completions/
    manual.py PROGRAM --check    compares them with the files there, and ends with status 1 where one differs

The texts are those of `--help` of the program and of each of its commands, which are printed on the error stream with
status 2. Of the manual page, FILES has the arguments of all commands, each once, and SEE ALSO the pages of docs/guide with
their titles. docs/help.txt is what `./mlock --help` prints before a program is compiled.
"""
import difflib
import pathlib
import re
import sys

import completions
from help_texts import texts_of, whole_of

TOP = pathlib.Path(__file__).resolve().parent.parent
GLYPHS = {'\\': r'\e', '^': r'\(ha', '~': r'\(ti', '`': r'\(ga', '"': r'\(dq', "'": r'\(aq', '-': r'\-'}
DESCRIPTION = """\
`mlock` reads routines and a rule file, which says which lock covers which global and in what order locks are claimed. It
answers `yes`, or a list of faults with their places. It never runs M. What a `yes` says, and what it does not, is in
`docs/guide/YES.md`."""
REFUSED = 'A command line that is wrong, `--help` and `--version` end with status 2, and their text is on the error stream.'


def literal(text):
    """A text as it is, for roff."""
    return ''.join(GLYPHS.get(it, it) for it in text)


def prose(text):
    """A paragraph for roff, a sentence a line: what is in backquotes is bold, and so are options."""
    found = []
    for index, part in enumerate(text.split('`')):
        if index % 2:
            found.append(fr'\fB{literal(part)}\fR')
        else:
            for word in re.split(r'(--[a-z]+)', part):
                plain = literal(word).replace(r'\-', '-').replace(r'\(aq', "'")
                found.append(fr'\fB{literal(word)}\fR' if word.startswith('--') else plain)
    lines = re.sub(r'(?<=\.)\s+', '\n', ''.join(found)).split('\n')
    return [fr'\&{it}' if it[:1] in ('.', "'") else it for it in lines]


def words_of(text):
    """Words of a command line for roff: options are bold, and names of values are in italics."""
    text = re.sub(r'<([A-Z]+)>(\.\.\.)?', lambda it: fr'<{it[1]}> {it[2]}' if it[2] else it[0], text)
    found = re.split(r'(<[A-Z]+>|--?[A-Za-z]+)', text)
    kinds = {'<': lambda it: fr'\fI{it[1:-1]}\fR', '-': lambda it: fr'\fB{literal(it)}\fR'}
    return ''.join(kinds.get(it[:1], literal)(it) for it in found)


def listed(pairs):
    """A list for roff."""
    for words, said in pairs:
        default = re.fullmatch(r'(.*?) ?\[default: (\w+)\]', said)
        text = f'{default[1]}. The default is {default[2]}' if default else said
        yield from ('.TP', words_of(words), *prose(f'{text}.'))


def synopsis(command, it):
    """A command line, with each of the command's options."""
    options = ''.join(f'[{words}] ' for words, _ in it.options)
    return [fr'\fBmlock {command}\fR {words_of(options + it.words.removeprefix("[OPTIONS] "))}', '.br']


def page(whole):
    """The manual page."""
    helps = whole.commands
    guide = [(it, it.read_text().split('\n')[0].removeprefix('# ')) for it in sorted((TOP / 'docs/guide').glob('*.md'))]
    lines = [r'.\" Made by tools/manual.py from what --help says.', f'.TH MLOCK 1 "" "{whole.version}" "User Commands"',
             '.SH NAME', fr'mlock \- {literal(whole.about[0].lower() + whole.about[1:])}', '.SH SYNOPSIS', '.nh', '.ad l']
    for name, it in helps.items():
        lines += synopsis(name, it)
    lines += [r'\fBmlock\fR [\fICOMMAND\fR] \fB\-\-help\fR', '.br', r'\fBmlock \-\-version\fR', '.hy', '.ad b',
              '.SH DESCRIPTION', *prose(' '.join(DESCRIPTION.split())), '.SH COMMANDS']
    for name, it in helps.items():
        lines += [f'.SS {name}', *prose(f'{it.title}.')]
        for text in it.paragraphs:
            lines += ['.PP', *prose(text)]
        lines += listed(it.options)
    lines += ['.SH OPTIONS', *listed(whole.options), '.SH EXAMPLES']
    for it in helps.values():
        lines += ['.PP', *prose(f'{it.title}:'), '.PP', '.EX', f'    {literal(it.example)}', '.EE']
    lines += ['.SH EXIT STATUS']
    for name, it in helps.items():
        lines += ['.TP', fr'\fB{name}\fR', *prose(it.status)]
    lines += ['.PP', *prose(REFUSED), '.SH FILES', *listed(dict.fromkeys(it for it in sum((it.arguments for it in helps.values()), []) if completions.takes_file(it[0]))),
              '.SH SEE ALSO', *prose('In the repository: `README.md`, and')]
    for file, title in guide:
        lines += ['.TP', fr'\fB{literal(str(file.relative_to(TOP)))}\fR', *prose(title)]
    return '\n'.join(lines) + '\n'


def made_of(program):
    """All that is made of what the program says, by its file below the top."""
    texts = texts_of(program)
    whole = whole_of(program, texts)
    return {
        'docs/mlock.1': page(whole),
        'docs/help.txt': ''.join(f'== mlock {words}\n{text}' for words, text in texts.items()),
        'completions/mlock.bash': completions.bash(whole),
        'completions/_mlock': completions.zsh(whole),
        'completions/mlock.fish': completions.fish(whole),
    }


def write(made):
    for name, text in made.items():
        (TOP / name).parent.mkdir(exist_ok=True)
        (TOP / name).write_text(text)


def differing(made):
    """Prints how the files differ from what is made, and gives which do."""
    found = []
    for name, text in made.items():
        now = (TOP / name).read_text() if (TOP / name).exists() else ''
        if now != text:
            found.append(name)
            print(*difflib.unified_diff(now.split('\n'), text.split('\n'), name, 'what --help says', n=0, lineterm=''), sep='\n')
    return found


def main():
    if len(sys.argv) not in (2, 3) or sys.argv[2:] not in ([], ['--check']):
        sys.exit(__doc__)
    made = made_of(str(pathlib.Path(sys.argv[1]).resolve()))
    if not sys.argv[2:]:
        write(made)
        return 0
    found = differing(made)
    if not found:
        print('the manual page, help and completions are what --help says')
        return 0
    print(f'to make {" ".join(found)} anew: python3 tools/manual.py {sys.argv[1]}')
    return 1


if __name__ == '__main__':
    sys.exit(main())
