"""What sweeps.py and hostile.py share: runs of the program, many side by side, and the last line."""
import concurrent.futures
import os
import pathlib
import subprocess
import typing

TOP = pathlib.Path(__file__).resolve().parent.parent


class Answer(typing.NamedTuple):
    """What a run of the program came to."""

    status: int
    out: str
    error: str


def answer(program, words, folder=TOP, seconds=None, **settings):
    """What the program answers to these words in a folder, with these settings alone besides the PATH."""
    env = {'PATH': os.environ['PATH'], **settings}
    done = subprocess.run([program, *words], cwd=folder, env=env, stdin=subprocess.DEVNULL, stdout=subprocess.PIPE,
                          stderr=subprocess.PIPE, timeout=seconds, check=False)
    return Answer(done.returncode, *(it.decode('utf-8', 'backslashreplace') for it in (done.stdout, done.stderr)))


def wrong_of(trials, tried):
    """What is wrong with some of these trials, which are made side by side."""
    with concurrent.futures.ThreadPoolExecutor(os.cpu_count()) as workers:
        return [it for it in workers.map(tried, trials) if it]


def tell(name, count, wrong):
    """Prints what is wrong, and how many trials passed. The status to end with."""
    for text in wrong:
        print(text)
    print(f'{name}: {count - len(wrong)} passed, {len(wrong)} failed')
    return 1 if wrong or not count else 0
