#!/usr/bin/env python3
"""Writes a small program and a large file of events that `mlock replay` takes.

    events.py DIR [EVENTS [JOBS]] [apart|shared|deep|large|waiting|chain]     1,000,000 events of 1,000 jobs that are apart, unless said

    time ./mlock replay DIR/rules.toml DIR/events DIR/COUNT.m

The jobs take turns, each makes one event. apart: each job counts in a node of its own, under a lock of its own, round and
round: run, claim, run, read, run, write, run, release. shared: the same in ten nodes that all jobs share, where the jobs
of a node take turns. deep: as apart, from within 200 calls, each with a formal and a NEW. large: as apart, and each job has
200 locals. waiting: half of the jobs hold a lock each, and the others wait for them. chain: each job holds a lock, and waits
for the next job. In these two EVENTS says nothing.
"""
import argparse
import pathlib

RULES = """[[lock]]
name = "^COUNT"
rank = 10
[[cover]]
global = "^COUNT(ward,...)"
lock = "^COUNT(ward)"
[[entry]]
label = "COUNT^COUNT"
[[entry]]
label = "DEEP^COUNT"
[[entry]]
label = "LARGE^COUNT"
[[entry]]
label = "CHAIN^COUNT"
"""
ROUTINE = """COUNT(W) ; counts in a node, round and round
 DO ROUNDS
 QUIT
ROUNDS ; round and round
 FOR  DO ONE
 QUIT
ONE ; counts once
 LOCK +^COUNT(W)
 SET ^COUNT(W,"visits")=$GET(^COUNT(W,"visits"))+1
 LOCK -^COUNT(W)
 QUIT
CHAIN(W,NEXT) ; claims one after another
 LOCK +^COUNT(W)
 LOCK +^COUNT(NEXT)
 QUIT
DEEP(W) ; counts many calls deep
 DO D1(1)
 QUIT
LARGE(W) ; counts beside many locals
 DO L1
 DO ROUNDS
 QUIT
"""
DEPTH, NAMES, SHARED = 200, 200, 10
ENTRIES = {"deep": "DEEP", "large": "LARGE", "chain": "CHAIN"}


def routine():
    """The routine, with a label for each depth and the names that are set."""
    depths = "".join(f"D{n}(A) NEW X SET X=A DO D{n + 1}(A) QUIT\n" for n in range(1, DEPTH))
    names = "L1 SET " + ",".join(f"X{n}={n}" for n in range(NAMES)) + " QUIT\n"
    return f"{ROUTINE}{depths}D{DEPTH}(A) DO ROUNDS QUIT\n{names}"


def rounds(job):
    """The events of one job, round and round."""
    while True:
        yield from (f"run {job}", f"go {job}", f"run {job}", f'go {job} "41"', f"run {job}", f"go {job}", f"run {job}", f"go {job}")


def in_turns(jobs, count, size):
    """So many events, where so many jobs take turns, and each makes all events of a round at once if others share its node."""
    left = [rounds(job) for job in range(1, jobs + 1)]
    while count > 0:
        for events in left:
            for _ in range(min(size, count)):
                yield next(events)
            count -= size


def written(kind, count, jobs):
    """The lines of the file."""
    label = ENTRIES.get(kind, "COUNT")
    wards = {"shared": SHARED, "waiting": jobs // 2}.get(kind, jobs + 1)
    for job in range(1, jobs + 1):
        more = f' "{job + 1}"' if kind == "chain" else ""
        yield f'begin {job} {label}^COUNT 0 "{job % wards}"{more}'
    if kind == "waiting":
        for job in range(1, jobs + 1):
            yield from [f"run {job}", f"go {job}", f"run {job}"] if job <= wards else [f"run {job}"]
    elif kind == "chain":
        for job in range(1, jobs + 1):
            yield from [f"run {job}", f"go {job}", f"run {job}"]
    else:
        yield from in_turns(jobs, count - jobs, 8 if kind == "shared" else 1)


def main():
    parser = argparse.ArgumentParser(description=__doc__, formatter_class=argparse.RawDescriptionHelpFormatter)
    parser.add_argument("folder", metavar="DIR", type=pathlib.Path)
    parser.add_argument("count", metavar="EVENTS", type=int, nargs="?", default=1_000_000)
    parser.add_argument("jobs", metavar="JOBS", type=int, nargs="?", default=1000)
    parser.add_argument("kind", choices=["apart", "shared", "deep", "large", "waiting", "chain"], nargs="?", default="apart")
    words = parser.parse_args()
    words.folder.mkdir(parents=True, exist_ok=True)
    (words.folder / "rules.toml").write_text(RULES)
    (words.folder / "COUNT.m").write_text(routine())
    (words.folder / "events").write_text("".join(line + "\n" for line in written(words.kind, words.count, words.jobs)))


if __name__ == "__main__":
    main()
