#!/usr/bin/env python3
"""Measures how many times the steps of one worker two and four workers make, and 64 against four.

    bench/workers.py USES [TIMES [DEVICES]]

USES is the built program crates/fleet_workers_uses/out/fleet_workers_uses. The scenario is that of runs.py: so many
devices (4,096) with 100 mixed steps each. In each of TIMES rounds (10) every run is made once, one after another, and
beside them as many serial runs at once as there are workers, each a process of its own: what the machine has to give.
Time by the clock counts, beyond reading the image, until all steps are made: starting the devices is a part of a run.
The figures are of the least times and, where the host lends its processors to others, of the least quarter: the time
that a quarter of the rounds stay below. The last row has the steps a second that four workers make. README.md says what
was measured.
"""
import os
import sys
import tempfile

import pairs
import runs

BATCHES = (16, 64)
WORKERS = {"one": 1, "two": 2, "four": 4, "all": 64}
APART = (2, 4)


def rounds(uses, file, times):
    """The seconds of each round, in ascending order, by run."""
    every = sorted(os.sched_getaffinity(0))
    kinds = ["image", "serial", *(f"{it} {batch}" for it in WORKERS for batch in BATCHES)]
    found = {}
    for _ in range(times):
        for kind in kinds:
            found.setdefault(kind, []).append(pairs.seconds(uses, f"{file}-{kind.replace(' ', '-')}", every))
        for count in APART:
            found.setdefault(count, []).append(pairs.seconds(uses, f"{file}-serial", every, count))
    return {kind: sorted(it) for kind, it in found.items()}


def rows(found, at, steps):
    """The table's rows, by the time of this place in the order of the rounds, of runs with so many steps."""
    beyond = {kind: it[at] - found["image"][0] for kind, it in found.items()}
    for name, count in (("two", 2), ("four", 4)):
        apart = count * beyond["serial"] / beyond[count]
        yield [name, f"{apart:.2f}", *(f"{beyond[f'one {it}'] / beyond[f'{name} {it}']:.2f}" for it in BATCHES)]
    yield ["64, against four", "-", *(f"{beyond[f'four {it}'] / beyond[f'all {it}']:.2f}" for it in BATCHES)]
    yield ["one, in ms", runs.ms(beyond["serial"]), *(runs.ms(beyond[f"one {it}"]) for it in BATCHES)]
    yield ["four, steps/s", "-", *(f"{steps / beyond[f'four {it}']:,.0f}" for it in BATCHES)]


def main():
    if len(sys.argv) not in (2, 3, 4) or sys.argv[1].startswith("-"):
        sys.exit(__doc__)
    uses = os.path.abspath(sys.argv[1])
    times, devices = (int(given) for given in [*sys.argv[2:], *("10", "4096")[len(sys.argv) - 2 :]])
    with tempfile.TemporaryDirectory() as folder:
        file = os.path.join(folder, "mixed")
        runs.write_apart(file, runs.mixed(100), devices)
        found = rounds(uses, file, times)
    columns = ["Times the steps of one", "Processes", *(f"Batch {it}" for it in BATCHES)]
    for name, at in (("least", 0), ("least quarter", times // 4)):
        print(f"By the {name} of {times} rounds:\n")
        runs.table(columns, list(rows(found, at, 100 * devices)))


if __name__ == "__main__":
    main()
