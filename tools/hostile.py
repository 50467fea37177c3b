#!/usr/bin/env python3
"""Gives the program torn, forged, changed and extreme files, and paths that can't be read, and looks at what it answers.

    hostile.py PROGRAM [--all] [--stack KB]

All runs have a stack of 256 KB (or as many as are said), threads' too, but for some extremes. Whatever is given, the answer
must be one of the documented forms, in time: no signal, no crash, nothing else on standard error. What else is compared with
what:

torn: the certificate of each example, in both formats, cut to each shorter length, with what docs/guide/CERTIFICATE.md says.
forged: certificates with points that no line has, which stay as good as they were; certificates of other routines; and lines
    of certificates left out, doubled and exchanged, as what is changed.
changed: each byte of small examples in turn, made each of some other bytes, left out, and doubled.
  A certificate: the report is the same by one worker and by four, and by the same certificate in the other format, which
    second_looks.py writes as `convert` does; and no such certificate ever gives `yes` to a twin of the routine that is not
    safe, which is shown by a replay of two jobs that clash.
  A routine: it is read, or refused, as bench/second_routine_reader.py reads it. The report is the same by one worker and by
    four, that of `verify` is that of `check` by what `make` prints, and where the old certificate still gives `yes` so does
    `verify`; then two jobs are replayed by some schedules, each as far as it can happen, and nothing is seen that a `yes`
    rules out: no clash, no ring, no lock of a job that ended. How often they see that where the answer is no `yes`, is printed.
    `suggest` suggests rules for it, whatever can't be read, and what it prints is read as rules; the stubs that `suggest --stubs`
    writes for it are read as routines.
  A rule file: 401 is reported just where Python's reader refuses it as TOML (where Python has one), the answer is the old one
    where both files say the same, and a `yes` is replayed as above.
  A file of events: 504 is reported of just the first line that is none by second_looks.py; and which clash, who waits and whether
    there is a ring is what second_looks.py makes of the printed lines of jobs.
extremes: what is on either side of a limit of docs/guide/LIMITS.md, and long and deep input.
unread: for each path of a command line, a file that is not there, a folder and the like: the first such path is reported.

With --all it tries what takes longer, too. The last two lines say how many changed files still are `yes`, and how many trials
passed; the command of each that failed is above.
"""
import argparse
import collections
import itertools
import multiprocessing
import os
import pathlib
import re
import resource
import sys
import tempfile

import changed_files
import extremes
import second_looks
from running import Answer, tell
from trials import EXAMPLES, HOSPITAL, SAFE, SMALL, WARD, YES, Room, Trial, ask, ask_same

# how many trials a process takes at once
SHARE = 4


def torn_answer(text):
    if len(text) < len('mlock-cert 1\n'):
        return Answer(2, '', 'refused cert 1 601 Head\n')
    return Answer(2, '', f'refused cert {text.count(bytes([10]))} 606 NoEnd\n')


def try_certificate(room, example, text, wanted):
    ask_same(room.check(example.rules, room.write('cert', text), example.paths), wanted, 'another answer')


def torn(all):
    for example in EXAMPLES if all else SMALL:
        for number, text in example.in_formats():
            for size in range(len(text)):
                said = example.said(f'of the certificate {size} bytes, in format {number}')
                yield Trial(said, try_certificate, (example, text[:size], torn_answer(text[:size])))


def with_points(text):
    """A certificate of the first format with a point more: past all lines, in each block, or of a FOR that the line does not have."""
    lines = text.splitlines(True)
    case = next(it.split(b' ', 2)[2] for it in lines if it.startswith(b'at '))
    for n, (line, after) in enumerate(zip(lines, lines[1:]), 1):
        if line.startswith(b'at '):
            number = line.split(b'.')[0]
            further = [] if after.startswith(number + b'.') else [number + b'.200']
            if not after.startswith(b'at '):
                further += [b'at 60000.0', b'at 65535.255']
            for point in further:
                yield f'{point.decode()} below line {n}', b''.join([*lines[:n], point + b' ' + case, *lines[n:]])


def forged_with_points(example):
    for done, text in with_points(example.text(example.certificate)):
        for number, form in (1, text), (2, second_looks.second_format(text)):
            said = example.said(f'the certificate with {done}, in format {number}')
            yield Trial(said, try_certificate, (example, form, YES))


def of_another(example, other):
    for number, text in other.in_formats():
        entry = re.search('^entry .*$', text.decode(), re.M)[0]
        said = example.said(f'in place of the certificate {other.certificate}, in format {number}')
        yield Trial(said, try_certificate, (example, text, Answer(2, '', f'refused {entry} 901 EntryMissing\n')))


def forged():
    for example in SAFE:
        yield from forged_with_points(example)
    for example, other in itertools.permutations(EXAMPLES, 2):
        yield from of_another(example, other)


# -- paths that can't be read

def try_unread(room, words, wrong):
    ask_same(room.run(*words), Answer(3, '', f'error file {wrong}\n'), 'another answer')


def unread(folder):
    """Command lines with paths that can't be read: the k-th, and the k-th and all later ones."""
    (folder / 'loop').symlink_to(folder / 'loop')
    bad = ['none', '.', '', 'examples/ward/rules.toml/none', 'n' * 256, '/proc/self/mem', str(folder / 'loop')]
    if os.geteuid():
        (folder / 'closed').touch(0)
        bad.append(str(folder / 'closed'))
    lines = [('verify', WARD.rules, *WARD.paths), ('make', HOSPITAL.rules, *HOSPITAL.paths),
             ('check', HOSPITAL.rules, HOSPITAL.certificate, *HOSPITAL.paths), ('convert', HOSPITAL.certificate),
             ('replay', 'examples/night/rules.toml', 'examples/night/ring', 'examples/night/WARD.m'), ('suggest', *HOSPITAL.paths), ('stubs', *HOSPITAL.paths)]
    # (from which word on a command has routines, for which a folder stands too)
    routines = {'verify': 2, 'make': 2, 'check': 3, 'convert': 2, 'replay': 3, 'suggest': 1, 'stubs': 1}
    for words in lines:
        for at in range(1, len(words)):
            for path in bad if at < routines[words[0]] else [it for it in bad if it != '.']:
                for rest in words[at + 1:], ['nor this'] * (len(words) - at - 1):
                    given = [*words[:at], path, *rest]
                    yield Trial(f"mlock {' '.join(given)}", try_unread, (given, path))


# -- extremes

def set_stack(size):
    """So many bytes of stack for all that is run from here on."""
    resource.setrlimit(resource.RLIMIT_STACK, (size, resource.getrlimit(resource.RLIMIT_STACK)[1]))


def try_extreme(room, extreme):
    """The files are removed afterwards, since some are large."""
    files, usual = extreme.files(), resource.getrlimit(resource.RLIMIT_STACK)
    try:
        for name, text in files.items():
            room.write(name, text)
        set_stack(max(extreme.stack << 10, usual[0]))
        given = room.run(*extreme.words)
    finally:
        set_stack(usual[0])
        for name in files:
            (room.folder / name).unlink()
    if isinstance(extreme.wanted, Answer):
        ask_same(shown(given), shown(extreme.wanted), 'another answer')
    else:
        wrong = extreme.wanted(given)
        ask(not wrong, f'{wrong}: {tuple(shown(given))}')


def shown(given):
    """An answer without the middle of long texts."""
    return Answer(given.status, *(it if len(it) < 400 else f'{it[:200]} .. {it[-100:]}' for it in given[1:]))


def trials_of_extremes(all):
    for it in extremes.extremes():
        if all or not it.is_long:
            words = it.words if len(it.words) < 20 else [*it.words[:6], '..']
            yield Trial(f"mlock {' '.join(words)}, {it.said}", try_extreme, (it,))


# -- all

class Tries:
    """Trials that several processes share, each with a room of its own."""

    def __init__(self, program, folder, trials):
        self.program, self.folder, self.trials, self.room = program, folder, trials, None

    def some(self, numbers):
        """What is wrong with some of the trials, and what was counted."""
        self.room = self.room or Room(self.program, self.folder)
        changed_files.COUNTS.clear()
        return [it for it in (self.trials[n].wrong(self.room) for n in numbers) if it], changed_files.COUNTS.copy()


def some(numbers):
    return TRIES.some(numbers)


def all_wrong(tries):
    """What is wrong with the trials, and what was counted; they are made side by side by copies of this process."""
    global TRIES
    TRIES = tries
    parts = [range(n, min(n + SHARE, len(tries.trials))) for n in range(0, len(tries.trials), SHARE)]
    with multiprocessing.get_context('fork').Pool() as workers:
        found = list(workers.imap(some, parts))
    return [it for wrong, _ in found for it in wrong], sum((counts for _, counts in found), collections.Counter())


def main():
    parser = argparse.ArgumentParser(description=__doc__, formatter_class=argparse.RawDescriptionHelpFormatter)
    parser.add_argument('program', metavar='PROGRAM', type=pathlib.Path)
    parser.add_argument('--all', action='store_true')
    parser.add_argument('--stack', metavar='KB', type=int, default=256)
    words = parser.parse_args()
    set_stack(words.stack << 10)
    with tempfile.TemporaryDirectory(prefix='hostile-') as folder:
        folder = pathlib.Path(folder)
        trials = [*trials_of_extremes(words.all), *torn(words.all), *forged(), *changed_files.changed(words.all), *unread(folder)]
        tries = Tries(words.program.resolve(), folder, trials)
        wrong, counts = all_wrong(tries)
    print('hostile: ' + ', '.join(f'{number} {what}' for what, number in sorted(counts.items())))
    sys.exit(tell('hostile', len(trials), wrong))


if __name__ == '__main__':
    main()
