#!/usr/bin/env python3
"""Measures what workers do with their processors: how much of it under the lock, and how much waiting for it.

    bench/waiting.py USES [TIMES]

USES is the built program crates/fleet_workers_uses/out/fleet_workers_uses, and the scenario that of workers.py. Each
run is made TIMES times (10) under `perf record`, which looks 5,000 times a second at what each processor does, and
TIMES times under `strace`, which tells how long threads sleep. Both come with Debian's packages linux-perf and strace.

A row has the processor time of a run beyond reading the image; which part of it was spent in the functions that visit
the trace, without what these call of the C library and the system, and which in looking at the lock's words; and how
often and how long all threads together slept.
"""
import collections
import os
import re
import subprocess
import sys
import tempfile

import runs

KINDS = [f"{workers} {batch}" for workers in ("one", "two", "four", "all") for batch in (16, 64)]

# A function that a pass waits in, and those that a worker is in while it is inside the lock.
WAITS = "TicketLock::take"
VISITS = ("Trace::claim", "Trace::put", "visits::")


def looked(uses, file, folder):
    """How often each function was seen at work."""
    data = os.path.join(folder, "perf.data")
    with open(file, "rb") as given:
        words = ["perf", "record", "-q", "-e", "cpu-clock", "-F", "5000", "-o", data, uses]
        subprocess.run(words, stdin=given, stdout=subprocess.DEVNULL, stderr=subprocess.DEVNULL, check=True)
    words = ["perf", "report", "-i", data, "--stdio", "--no-children", "-g", "none", "-F", "sample,symbol"]
    said = subprocess.run(words, capture_output=True, text=True, check=True).stdout
    found = collections.Counter()
    for count, name in re.findall(r"^ *(\d+) +\[.\] (.*?) *$", said, re.M):
        found[name] += int(count)
    return found


def slept(uses, file):
    """How often threads slept until their time was over, and how many seconds in all. The wait of the first one for the
    others to end is not among them: it has no time."""
    words = ["strace", "-f", "-T", "-e", "trace=futex", "-e", "signal=none", uses]
    with open(file, "rb") as given:
        how = {"stdout": subprocess.DEVNULL, "stderr": subprocess.PIPE, "text": True, "check": True}
        said = subprocess.run(words, stdin=given, **how).stderr
    naps = re.findall(r"ETIMEDOUT.*<([\d.]+)>$", said, re.M)
    return len(naps), sum(map(float, naps))


def share(found, names):
    """How often one of these functions was seen at work."""
    return sum(count for name, count in found.items() if any(it in name for it in names))


def main():
    if len(sys.argv) not in (2, 3) or sys.argv[1].startswith("-"):
        sys.exit(__doc__)
    uses = os.path.abspath(sys.argv[1])
    times = int(sys.argv[2]) if len(sys.argv) == 3 else 10
    rows = []
    with tempfile.TemporaryDirectory() as folder:
        file = os.path.join(folder, "mixed")
        runs.write_apart(file, runs.mixed(100), 4096)
        read = sum(sum(looked(uses, f"{file}-image", folder).values()) for _ in range(times))
        for kind in KINDS:
            path, found, naps, seconds = f"{file}-{kind.replace(' ', '-')}", collections.Counter(), 0, 0.0
            for _ in range(times):
                found += looked(uses, path, folder)
                more = slept(uses, path)
                naps, seconds = naps + more[0], seconds + more[1]
            total = sum(found.values()) - read
            parts = [share(found, it) / total for it in (VISITS, [WAITS])]
            rows.append([kind, f"{total / 5 / times:.0f}", *(f"{it:.1%}" for it in parts), f"{naps / times:.0f}",
                         f"{seconds / times * 1e3:.1f}"])
    runs.table(["Run", "Processor ms", "Under the lock", "Looking", "Sleeps", "Asleep ms"], rows)


if __name__ == "__main__":
    main()
