#!/usr/bin/env python3
"""Runs the transcripts of the documents, and compares what is printed with what they show.

    transcripts.py PROGRAM

A transcript is in README.md or below docs/ between lines of three backquotes. A line that begins with `$ ` is a
command for the shell, run in the folder of examples/, with `./mlock` as PROGRAM; the lines after it, up to the next command
or the end, are what it prints on standard output and standard error. Each transcript begins with examples/ as it is in
the repository, so that a document may show how to change a routine. Text before the first command is no transcript.
"""
import pathlib
import shutil
import subprocess
import sys
import tempfile

TOP = pathlib.Path(__file__).resolve().parent.parent


def fenced(text):
    """The blocks of a document, each with the number of its first line."""
    block, start = None, 0
    for number, line in enumerate(text.split('\n'), 1):
        if line.startswith('```'):
            if block is not None:
                yield start, block
            block, start = ([], number + 1) if block is None else (None, 0)
        elif block is not None:
            block.append(line)


def steps(block):
    """The commands of a block, each with the lines that it must print."""
    found = []
    for line in block:
        if line.startswith('$ '):
            found.append((line[2:], []))
        elif found:
            found[-1][1].append(line)
    return found


def ran(block, program):
    """What is wrong with a transcript, or nothing."""
    with tempfile.TemporaryDirectory(prefix='transcript-') as room:
        shutil.copytree(TOP / 'examples', f'{room}/examples')
        pathlib.Path(f'{room}/mlock').symlink_to(program)
        for command, wanted in steps(block):
            it = subprocess.run(['bash', '-c', command], cwd=room, stdin=subprocess.DEVNULL, stdout=subprocess.PIPE,
                                stderr=subprocess.STDOUT, timeout=120, check=False)
            got = it.stdout.decode('utf-8', 'surrogateescape').rstrip('\n').split('\n')
            if got != ('\n'.join(wanted).rstrip('\n')).split('\n'):
                return '\n'.join([f'$ {command}', 'printed', *got, 'in place of', *wanted])
    return None


def main():
    program = pathlib.Path(sys.argv[1]).resolve()
    passed = failed = 0
    for path in [TOP / 'README.md', *sorted((TOP / 'docs').rglob('*.md'))]:
        for line, block in fenced(path.read_text()):
            if steps(block):
                wrong = ran(block, program)
                passed, failed = passed + (not wrong), failed + bool(wrong)
                if wrong:
                    print(f'{path.relative_to(TOP)}:{line}: {wrong}')
    print(f'transcripts of the documents: {passed} passed, {failed} failed')
    return 1 if failed or not passed else 0


if __name__ == '__main__':
    sys.exit(main())
