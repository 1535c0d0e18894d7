#!/usr/bin/env python3
"""Measures runs by lwbench's workers beside the same runs by two other programs in Rust, in one window.

    bench/beside.py USES PLAIN TUNED [ROUNDS]

USES is the built program crates/fleet_workers_uses/out/fleet_workers_uses. PLAIN and TUNED are programs outside of this
repository, which make the same devices do the same: 4,096 of them, 100 mixed steps each (runs.py). PLAIN takes `4096
100 BATCH TIMES` and TUNED `bench IMAGE BATCH TIMES`; each prints a line for the serial run and for 1, 2 and 4 workers.
In each of ROUNDS rounds (25) all three make each run once, one after another. The table has the most steps a second by
the clock, and the least processor time a step. Those of USES count beyond reading the image.
"""
import os
import re
import subprocess
import sys
import tempfile

import runs

STEPS = 4096 * 100
BATCHES = (16, 64)
WORKERS = {"one": 1, "two": 2, "four": 4}
OF_PLAIN = re.compile(r"(?:serial|workers (\d+)): best (\d+) .*?(\d+) ns of CPU")
OF_TUNED = re.compile(r"workers (\d+) batch (\d+): million steps/s best ([\d.]+) .*ns of CPU a step best ([\d.]+)")


def own(uses, file):
    """The seconds by the clock and of processors of each run of lwbench, and of reading the image alone."""
    kinds = {("image", 0): "image", (0, 0): "serial"}
    kinds |= {(count, batch): f"{name}-{batch}" for name, count in WORKERS.items() for batch in BATCHES}
    found = {}
    for key, kind in kinds.items():
        wanted = f"steps {0 if kind == 'image' else STEPS}\n"
        found[key] = runs.once([uses], wanted, f"{file}-{kind}")[:2]
    return found


def lines(command):
    return subprocess.run(command, check=True, capture_output=True, text=True).stdout.splitlines()


def plain(program):
    """By workers and batch, steps a second and nanoseconds a step of the plain program."""
    for batch in BATCHES:
        for line in lines([program, "4096", "100", str(batch), "1"]):
            match = OF_PLAIN.match(line)
            if match and (match[1] or batch == BATCHES[0]):
                yield (int(match[1] or 0), batch if match[1] else 0), (float(match[2]), float(match[3]))


def tuned(program, image):
    """The same of the tuned one."""
    for line in lines([program, "bench", image, str(BATCHES[0]), "1"]):
        match = OF_TUNED.match(line)
        if match and int(match[2]) in (0, *BATCHES):
            yield (int(match[1]), int(match[2])), (float(match[3]) * 1e6, float(match[4]))


def main():
    if len(sys.argv) not in (4, 5) or sys.argv[1].startswith("-"):
        sys.exit(__doc__)
    uses, *others = (os.path.abspath(it) for it in sys.argv[1:4])
    times = int(sys.argv[4]) if len(sys.argv) == 5 else 25
    mine, best = {}, {}
    with tempfile.TemporaryDirectory() as folder:
        file = os.path.join(folder, "mixed")
        runs.write_apart(file, runs.mixed(100), 4096)
        for _ in range(times):
            for key, taken in own(uses, file).items():
                mine[key] = [min(it) for it in zip(taken, mine.get(key, taken))]
            for name, found in (("plain Rust", plain(others[0])), ("tuned Rust", tuned(others[1], file))):
                for key, (rate, each) in found:
                    before = best.get((name, *key), (rate, each))
                    best[name, *key] = (max(rate, before[0]), min(each, before[1]))
    start = mine.pop(("image", 0))
    for key, taken in mine.items():
        clock, seconds = (it - of for it, of in zip(taken, start))
        best["lwbench", *key] = (STEPS / clock, seconds / STEPS * 1e9)
    rows = [[name, str(count), str(batch), f"{rate:,.0f}", f"{each:.0f}"]
            for (name, count, batch), (rate, each) in sorted(best.items())]
    runs.table(["Program", "Workers", "Batch", "Steps/s", "A step ns"], rows)


if __name__ == "__main__":
    main()
