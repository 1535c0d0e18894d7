#!/usr/bin/env python3
"""Measures how many times the steps of one worker two workers make, on each pair of processors.

    bench/pairs.py USES [TIMES]

USES is the built program crates/fleet_workers_uses/out/fleet_workers_uses. The scenario is that of runs.py: 4,096
devices with 100 mixed steps each. Every program is bound to the pair; it runs in TIMES rounds (5), and the least time
by the clock counts, beyond reading the image, until all steps are made. `apart` is two serial runs at once, each a process of
its own, against one alone: what the pair itself has to give. README.md says what was measured.
"""
import itertools
import os
import sys
import tempfile
import time
from subprocess import PIPE, Popen

import runs

BATCHES = (16, 64)
RUNS = [f"{workers} {batch}" for workers in ("one", "two") for batch in BATCHES]


def seconds(uses, file, pair, copies=1):
    """Seconds until each of so many copies of the program has printed its line, on the pair of processors."""
    given = [open(file, "rb") for _ in range(copies)]
    bind = (lambda: os.sched_setaffinity(0, pair))
    begun = time.monotonic()
    children = [Popen([uses], stdin=it, stdout=PIPE, preexec_fn=bind) for it in given]
    lines = [it.stdout.readline() for it in children]
    taken = time.monotonic() - begun
    for it in children:
        it.stdout.close()
        if it.wait() != 0:
            sys.exit(f"{uses} < {file}: status {it.returncode}, {lines}")
    for it in given:
        it.close()
    return taken


def measured(uses, file, pair, times):
    """Times the steps of one: two serial runs apart, and two workers with each batch."""
    kinds = {kind: f"{file}-{kind.replace(' ', '-')}" for kind in ["image", "serial", *RUNS]}
    least = {}
    for _ in range(times):
        for kind, path in kinds.items():
            least[kind] = min(least.get(kind, 1e9), seconds(uses, path, pair))
        least["apart"] = min(least.get("apart", 1e9), seconds(uses, kinds["serial"], pair, 2))
    beyond = {kind: it - least["image"] for kind, it in least.items()}
    return [2 * beyond["serial"] / beyond["apart"], *(beyond[f"one {it}"] / beyond[f"two {it}"] for it in BATCHES)]


def main():
    if len(sys.argv) not in (2, 3) or sys.argv[1].startswith("-"):
        sys.exit(__doc__)
    uses = os.path.abspath(sys.argv[1])
    times = int(sys.argv[2]) if len(sys.argv) == 3 else 5
    with tempfile.TemporaryDirectory() as folder:
        file = os.path.join(folder, "mixed")
        runs.write_apart(file, runs.mixed(100), 4096)
        found = [(pair, measured(uses, file, pair, times))
                 for pair in itertools.combinations(sorted(os.sched_getaffinity(0)), 2)]
    runs.table(["Processors", "Apart", *(f"Batch {it}" for it in BATCHES)],
               [[f"{pair[0]} and {pair[1]}", *(f"{it:.2f}" for it in times)] for pair, times in found])


if __name__ == "__main__":
    main()
