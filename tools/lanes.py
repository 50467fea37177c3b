#!/usr/bin/env python3
"""Prints how many commands to run side by side, by memory and processors.

    lanes.py       crates to prove, as RT_JOBS of `rt ci`; nothing where rt does as well by itself
    lanes.py GB    commands that take so much memory each

rt keeps some 4.4 GB free for a crate, up to 8, in 0.85 of the memory, and the largest take less than 3: so where memory is
small, its own rule leaves processors idle. Where that rule fills six processors, or all, it is better: a crate with no other
beside it then gets up to four of them.
"""
import os
import pathlib
import re
import sys

GB = 1_000_000_000
TAKEN, KEPT_FREE = 3 * GB, 5.2 * GB
# how many crates can be proved side by side for most of the time
SIDE_BY_SIDE = 6
GROUP = pathlib.Path('/sys/fs/cgroup')


def numbers(file):
    """The numbers in a file of the system; none where it can't be read, or says that there is no limit."""
    try:
        return [int(it) for it in re.findall(r'\d+', file.read_text())]
    except OSError:
        return []


def processors():
    """How many this may run on, or the control group's share of them."""
    found = len(os.sched_getaffinity(0))
    quota = numbers(GROUP / 'cpu.max') or numbers(GROUP / 'cpu/cpu.cfs_quota_us') + numbers(GROUP / 'cpu/cpu.cfs_period_us')
    # (a quota of -1 is none)
    return max(1, min(found, quota[0] // quota[1])) if len(quota) == 2 and quota[0] > 1 else found


def memory():
    """The bytes that are free, under the control group's limit too."""
    free = re.search(r'MemAvailable:\s+(\d+)', pathlib.Path('/proc/meminfo').read_text())
    found = [int(free[1]) * 1024]
    for limit, stat in (('memory.max', 'memory.stat'), ('memory/memory.limit_in_bytes', 'memory/memory.stat')):
        most = numbers(GROUP / limit)
        if most:
            # (what else the group has is a cache of files)
            held = re.search(r'^(?:anon|total_rss) (\d+)', (GROUP / stat).read_text(), re.MULTILINE)
            found.append(most[0] - int(held[1]))
    return min(found)


def fitting(count, free, taken):
    """As many as memory holds where each takes so much: at most one a processor, and at least one."""
    return max(1, min(count, free // taken))


def lanes(count, free):
    """How many crates to prove side by side; none where rt chooses as well."""
    return '' if free >= KEPT_FREE * min(count, SIDE_BY_SIDE) else fitting(count, free, TAKEN)


if __name__ == '__main__':
    print(fitting(processors(), memory(), int(sys.argv[1]) * GB) if sys.argv[1:] else lanes(processors(), memory()))
