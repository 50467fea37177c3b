#!/usr/bin/env python3
"""Refuses memory, threads, reads and writes of the program, one call after the other, and looks at what it answers.

    sweeps.py PROGRAM

For each of some command lines over examples/ and over small files of its own, with one worker and with four where that can
be said, the calls of each kind are counted. Then the program is run once for each of them, and that one call is refused; or it
and all later ones; or all memory of one thread from then on, while the others go on. Whatever was refused, the answer must be
the usual one, or status 3, a line of `error memory` or `error file PATH` on standard error, with explanations below it only if
they are asked for, and on standard output a beginning of the usual text. Where threads are refused it must be the usual one.
The library that refuses (refuse.c) needs a C compiler on the PATH: cc, gcc or clang. Where there is none it fails.
"""
import pathlib
import shutil
import subprocess
import sys
import tempfile

from running import TOP, answer, tell, wrong_of

WARD = ['examples/ward/rules.toml', 'examples/ward/ADMIT.m']
TRANSFER = ['examples/transfer/rules.toml', 'examples/transfer/BANK.m']

# The files of its own.
RULES = '''lock = [{name = "^ACCT", rank = 10}, {name = "^LOG", rank = 20}]
cover = [{global = "^ACCT(id,...)", lock = "^ACCT(id)"}, {global = "^LOG(...)", lock = "^LOG"}]
private = [{global = "^TMP($J,...)"}]
readonly = [{global = "^CONF(...)"}]
'''
DEPOSIT = 'DEP(ID,AMT) LOCK +^ACCT(ID) SET ^ACCT(ID,"bal")=$GET(^ACCT(ID,"bal"))+AMT LOCK -^ACCT(ID) QUIT\n'
WRAPPER = '''USE(ID) DO GRAB(ID) SET ^ACCT(ID)=1 LOCK -^ACCT(ID) QUIT
GRAB(K) LOCK +^ACCT(K) QUIT
'''
CALLER = '''entry USE^WRAP
need -
low 10
drops 0
mods -
exit T=* H=- K=ID
at 1.0 T=* H=- O=1:ID K=ID S=-
'''
CALLEE = '''entry GRAB^WRAP
need -
low 10
drops 0
mods -
exit T=* H=^ACCT(K) K=K
at 2.0 T=* H=- O=1:K K=K S=-
'''
EVENTS = '''begin 1 DEP^BANK 0 "A" "5"
begin 2 DEP^BANK 0 "A" "6"
begin 3 DEP^BANK 0 "B" "7"
run 1
go 1
run 2
run 3
go 3
run 3
go 3 "10"
run 3
abort 1
go 2
run 2
'''


def declaring(*labels):
    """The rules, with these entries."""
    return RULES + ''.join(f'[[entry]]\nlabel = "{it}"\n' for it in labels)


FILES = {
    'bank.toml': declaring('DEP^BANK'),
    'BANK.m': DEPOSIT,
    'events': EVENTS,
    'wrap.toml': declaring('USE^WRAP'),
    'WRAP.m': WRAPPER,
    'whole': f'mlock-cert 1\n{CALLER}{CALLEE}end\n',
    'believed': f'mlock-cert 1\n{CALLER}{CALLEE}end\n'.replace('H=^ACCT(K) ', 'H=- '),
    'uncertified': f'mlock-cert 1\n{CALLER}end\n',
    'empty': '',
    'head': 'mlock-cert 1\n',
    'twelve.toml': declaring(*(f'E{n}^TWELVE' for n in range(1, 13))),
    'TWELVE.m': ''.join(f'E{n} SET ^ACCT({n})=1 QUIT\n' if n < 6 else f'E{n} QUIT\n' for n in range(1, 13)),
    'first/TWICE.m': 'A QUIT\n',
    'second/TWICE.m': 'A QUIT\n',
}
# What is run, and whether it takes workers.
COMMANDS = [
    (['verify', *WARD], True),
    (['verify', *TRANSFER], True),
    (['verify', '--explain', *WARD], True),
    (['verify', '--strict', '--output', 'sarif', *WARD], True),
    (['verify', '--baseline', 'examples/recipes/release/known.txt', 'examples/recipes/release/rules.toml', 'examples/recipes/release/after'], True),
    (['make', *TRANSFER], False),
    (['make', '--format', '2', *TRANSFER], False),
    (['convert', 'examples/transfer/bank.cert'], False),
    (['survey', 'examples/night/WARD.m', *TRANSFER], False),
    (['suggest', '--beside', *TRANSFER, 'examples/night/WARD.m', 'examples/first/LOW.m'], False),
    (['stubs', '--for', 'DEV', 'examples/recipes/stubs/REP.m', 'examples/recipes/stubs/DEV.m'], False),
    (['check', 'examples/ward/rules.toml', 'examples/ward/ward.cert', 'examples/ward/ADMIT.m'], True),
    (['check', 'examples/transfer/rules.toml', 'examples/transfer/bank.cert', 'examples/transfer/BANK.m'], True),
    (['replay', 'examples/night/rules.toml', 'examples/night/ring', 'examples/night/WARD.m'], False),
    (['verify', 'bank.toml', 'BANK.m'], True),
    (['make', 'bank.toml', 'BANK.m'], False),
    (['replay', 'bank.toml', 'events', 'BANK.m'], False),
    # a call that claims: by a certificate that is right, with an exit that it only believes, without the callee, and two that are refused
    (['check', 'wrap.toml', 'whole', 'WRAP.m'], True),
    (['check', 'wrap.toml', 'believed', 'WRAP.m'], True),
    (['check', 'wrap.toml', 'uncertified', 'WRAP.m'], True),
    (['check', 'wrap.toml', 'empty', 'WRAP.m'], True),
    (['check', 'wrap.toml', 'head', 'WRAP.m'], True),
    (['verify', 'twelve.toml', 'TWELVE.m'], True),
    # which of two files is refused, as another program reads it
    (['verify', '--output', 'json', 'bank.toml', 'first/TWICE.m', 'second/TWICE.m'], False),
]
KINDS = ('memory', 'beside', 'thread', 'read', 'write')
# Each run has calls of these kinds.
ALWAYS = ('memory', 'read', 'write')
# How often the calls of other threads than the first are counted: the threads share the work in another way each time.
COUNTS = 10
ERRORS = ('error memory\n', 'error file ')


def command_lines():
    for words, takes_workers in COMMANDS:
        if takes_workers:
            for workers in '1', '4':
                yield [words[0], '--workers', workers, *words[1:]]
        else:
            yield words


def lay(room):
    """Lays the files into a folder, with examples/ below it."""
    for name, text in FILES.items():
        (room / name).parent.mkdir(parents=True, exist_ok=True)
        (room / name).write_text(text)
    (room / 'examples').symlink_to(TOP / 'examples')


class Sweep:
    """The runs of one program in a folder with calls refused."""

    def __init__(self, program, library, room, folder):
        self.program, self.library, self.room, self.folder = program, library, room, folder

    def run(self, words, **settings):
        """Status, standard output and standard error of a run."""
        return answer(self.program, words, self.room, LD_PRELOAD=str(self.library), **settings)

    def calls(self, words, kind):
        """How many calls of a kind a run makes, at most."""
        file = self.folder / 'count'
        counts = []
        for _ in range(COUNTS if kind == 'beside' else 1):
            self.run(words, REFUSED=kind, COUNT=str(file))
            counts.append(int(file.read_text()))
        return max(counts)

    def is_right(self, words, usual, kind, given):
        """Whether an answer is one that may be given where something was refused. Explanations are below the line."""
        if given == usual:
            return True
        status, out, error = given
        # (the line of a refusal may precede)
        error = error.removeprefix(usual[2])
        below = error.splitlines()[1:]
        said = error.startswith(ERRORS) and (not below or '--explain' in words and all(it.startswith('  = ') for it in below))
        return kind != 'thread' and status == 3 and usual[1].startswith(out) and said

    def tried(self, words, usual, kind, number, on):
        """What is wrong with the answer where this call is refused, and, if `on` is '1', those after it."""
        given = self.run(words, REFUSED=kind, AT=str(number), ON=on)
        if self.is_right(words, usual, kind, given):
            return None
        return f"mlock {' '.join(words)}\n  {kind} {number}{' and on' if on == '1' else ''} refused: {tuple(given)}"

    def all(self):
        """The number of runs, and what is wrong with some of them."""
        runs, unseen = [], []
        for words in command_lines():
            usual = self.run(words)
            for kind in KINDS:
                count = self.calls(words, kind)
                # (a refusal as text writes nothing on standard output)
                if not count and kind in ALWAYS and (kind != 'write' or usual[1]):
                    unseen.append(f"mlock {' '.join(words)}\n  no {kind} was asked for, so none was refused")
                for number in range(1, count + 1):
                    runs += [(words, usual, kind, number, on) for on in ('0', '1')]
        return len(runs) + len(unseen), unseen + wrong_of(runs, lambda run: self.tried(*run))


def main():
    if len(sys.argv) != 2:
        sys.exit(__doc__)
    program = pathlib.Path(sys.argv[1]).resolve()
    compiler = next(filter(shutil.which, ('cc', 'gcc', 'clang')), None)
    if compiler is None:
        sys.exit('sweeps: nothing is tried, since there is no C compiler on the PATH (cc, gcc or clang)')
    with tempfile.TemporaryDirectory() as folder:
        folder = pathlib.Path(folder)
        library = folder / 'refuse.so'
        subprocess.run([compiler, '-O2', '-shared', '-fPIC', '-o', library, TOP / 'tools/refuse.c', '-ldl'], check=True)
        lay(folder / 'room')
        count, wrong = Sweep(program, library, folder / 'room', folder).all()
    sys.exit(tell('sweeps', count, wrong))


if __name__ == '__main__':
    main()
