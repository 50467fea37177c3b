"""What the program's --help says, as texts and as tables: what the manual page and the completions are made of.

A command's help is a text with a line `Example:` and a paragraph `Status:`, then `Usage:`, `Arguments:` and `Options:`; what
has another form ends the script.
"""
import re
import subprocess
import sys
import typing

EVERYWHERE = ('-h', '-V')


class Help(typing.NamedTuple):
    """What the help of a command says. An item of a list is its words and what is said of it."""

    title: str
    paragraphs: list[str]
    example: str
    status: str
    words: str
    arguments: list[tuple[str, str]]
    options: list[tuple[str, str]]


class Whole(typing.NamedTuple):
    """What all help says: of the program, of its options, and of each command, by its name."""

    version: str
    about: str
    options: list[tuple[str, str]]
    commands: dict[str, Help]


def printed(program, *words):
    """What the program prints on the error stream, where it ends with status 2."""
    done = subprocess.run(['mlock', *words], executable=program, stdin=subprocess.DEVNULL, stdout=subprocess.PIPE,
                          stderr=subprocess.PIPE, timeout=60, check=False)
    if done.returncode != 2 or done.stdout:
        sys.exit(f'mlock {" ".join(words)}: status {done.returncode} in place of 2, or something on standard output')
    return done.stderr.decode()


def joined(text):
    """The paragraphs of a text, each as one line."""
    return [' '.join(it.split()) for it in re.split(r'\n\s*\n', text.strip())]


def items(text):
    """The items of a list: the words of each at two or six spaces, what is said of it behind them or below them."""
    found = []
    for line in text.split('\n'):
        start = re.match(r'(?: {2}| {6})(\S(?:\S| (?! ))*)(?: {2,}(\S.*))?$', line)
        if start:
            found.append((start[1], start[2] or ''))
        elif line.strip():
            words, said = found[-1]
            found[-1] = (words, f'{said} {line.strip()}'.strip())
    return found


def parts(text):
    """What comes before `Usage:`, and what is below each title from there on."""
    before, *rest = re.split(r'^(Usage|Commands|Arguments|Options):', text, flags=re.MULTILINE)
    return before, dict(zip(rest[::2], rest[1::2]))


def commands_of(text):
    """The commands that the program's own help lists."""
    return [name for name, _ in items(parts(text)[1]['Commands']) if name != 'help']


def texts_of(program):
    """What is printed for all words that ask for help, by those words: of a command in full and in short."""
    whole = printed(program, '--help')
    words = [(command, option) for command in commands_of(whole) for option in ('--help', '-h')]
    return {'--help': whole, **{' '.join(it): printed(program, *it) for it in words}}


def help_of(command, text):
    """The help of a command."""
    before, rest = parts(text)
    title, *paragraphs = joined(before)
    told = {name: [it for it in paragraphs if it.startswith(f'{name}: ')] for name in ('Example', 'Status')}
    if any(len(it) != 1 for it in told.values()):
        sys.exit(f'mlock {command} --help: not one line `Example:` and one paragraph `Status:`')
    example, status = (it[0].partition(': ')[2] for it in told.values())
    options = [it for it in items(rest['Options']) if not it[0].startswith(EVERYWHERE)]
    words = ' '.join(rest['Usage'].split()).removeprefix(f'mlock {command} ')
    return Help(title.rstrip('.'), [it for it in paragraphs if it not in sum(told.values(), [])], example, status, words,
                items(rest.get('Arguments', '')), options)


def whole_of(program, texts):
    """What all these texts say."""
    before, rest = parts(texts['--help'])
    about, = joined(before)
    version = printed(program, '--version').split(',')[0].strip()
    helps = {it: help_of(it, texts[f'{it} --help']) for it in commands_of(texts['--help'])}
    return Whole(version, about, items(rest['Options']), helps)
