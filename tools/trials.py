"""What the trials of hostile.py use: examples, a room in which the program is run, and what is asked of its answers."""
import pathlib
import subprocess
import tempfile
import typing

import second_looks
from running import TOP, Answer, answer

# how long a run may take
SECONDS = 60
YES = Answer(0, 'yes\n', '')


class Example(typing.NamedTuple):
    """Routines with their rules and a certificate, below examples/."""

    folder: str
    cert: str
    routines: tuple

    @property
    def rules(self):
        return f'examples/{self.folder}/rules.toml'

    @property
    def certificate(self):
        return f'examples/{self.folder}/{self.cert}.cert'

    @property
    def paths(self):
        return [f'examples/{self.folder}/{it}.m' for it in self.routines]

    def text(self, what):
        return (TOP / what).read_bytes()

    def in_formats(self):
        """The certificate in both formats, each with its number."""
        text = self.text(self.certificate)
        return [(1, text), (2, second_looks.second_format(text))]

    def said(self, done):
        """A check of this, and what was done to one of its files."""
        return f'mlock check {self.rules} {self.certificate} {" ".join(self.paths)}, {done}'


TWO = Example('two-lines', 'two', ('TWO',))
TRANSFER = Example('transfer', 'bank', ('BANK',))
WARD = Example('ward', 'ward', ('ADMIT',))
HOSPITAL = Example('hospital', 'hospital', ('ADM', 'BED', 'BIL', 'REP', 'TRF'))
SMALL = [TWO, TRANSFER, WARD]
EXAMPLES = [*SMALL, HOSPITAL]
# those to which the answer is `yes`
SAFE = [TWO, TRANSFER, HOSPITAL]


class Room:
    """A folder in which one worker runs the program, with examples/ below it."""

    def __init__(self, program, folder):
        self.program, self.folder = program, pathlib.Path(tempfile.mkdtemp(dir=folder))
        (self.folder / 'examples').symlink_to(TOP / 'examples')

    def write(self, name, text):
        (self.folder / name).write_bytes(text)
        return name

    def run(self, *words):
        try:
            return answer(self.program, words, self.folder, SECONDS)
        except subprocess.TimeoutExpired:
            return Answer('none in time', '', '')

    def check(self, rules, cert, routines, workers=1):
        return self.run('check', '--workers', str(workers), rules, cert, *routines)


class Wrong(Exception):
    """What is wrong with an answer."""


def ask(is_so, why):
    if not is_so:
        raise Wrong(why)


def ask_form(given, is_text=None):
    wrong = second_looks.form(given, is_text) if is_text else second_looks.form(given)
    ask(not wrong, f'{wrong}: {tuple(given)}')


def ask_same(given, wanted, why):
    ask(given == wanted, f'{why}: {tuple(given)} in place of {tuple(wanted)}')


class Trial(typing.NamedTuple):
    """What is given to the program, in words, and what is asked of its answers."""

    said: str
    asks: typing.Callable
    given: tuple

    def wrong(self, room):
        try:
            self.asks(room, *self.given)
        except Wrong as why:
            return f'{self.said}\n  {why}'
        return None
