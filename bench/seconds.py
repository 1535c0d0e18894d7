#!/usr/bin/env python3
"""Measures what seconds cost a device that is observed: long ticks beside short ones, and notifications by their number.

    bench/seconds.py USES [TIMES]

USES is the built program crates/fleet_workers_uses/out/fleet_workers_uses. Each row is the serial run of so many
devices: each is observed, and then ticks of so many seconds pass. The least processor time of TIMES rounds (5) counts,
beyond that of the same row without its ticks. README.md says what was measured.
"""
import os
import struct
import sys
import tempfile

import runs

# Devices, observations of each, the maximum period or none, the seconds of a tick, and the ticks.
ROWS = [
    (16, 32, None, 1, 2000),
    (16, 32, None, 86_400, 2000),
    (1, 32, None, 1, 20),
    (1, 32, None, 86_400, 20),
    (1, 1, 600, 86_400, 64),
    (1, 1, 60, 86_400, 64),
    (1, 32, 60, 86_400, 8),
]


def with_period(seconds):
    """A confirmable Write-Attributes of /3/0/9: its maximum period."""
    query = f"pmax={seconds}".encode()
    return runs.received(b"\x40\x03\xff\xff\xb1\x33\x01\x30\x01\x39" + bytes([0x40 + len(query)]) + query)


def tick(seconds):
    return b"\x02" + struct.pack(">I", seconds)


def before_ticks(observations, period):
    asked = [] if period is None else [with_period(period)]
    return asked + [runs.observed(token) for token in range(observations)]


def least(uses, file, kind, steps, times):
    """Processor seconds of the quickest of so many runs."""
    return min(runs.once([uses], f"steps {steps}\n", f"{file}-{kind}")[1] for _ in range(times))


def measured(uses, folder, times, row):
    devices, observations, period, seconds, ticks = row
    first = before_ticks(observations, period)
    taken = []
    for number, steps in enumerate((first, first + [tick(seconds)] * ticks)):
        file = os.path.join(folder, f"{number}")
        runs.write_apart(file, steps, devices)
        taken.append(least(uses, file, "serial", devices * len(steps), times))
    beyond = taken[1] - taken[0]
    sent = 0 if period is None else devices * observations * (ticks * seconds // period)
    return [str(devices), str(observations), "-" if period is None else str(period), f"{seconds:,}", f"{ticks:,}",
            runs.ms(beyond), runs.a_step(beyond, devices * ticks), f"{sent:,}",
            runs.a_step(beyond, sent) if sent else "-"]


def main():
    if len(sys.argv) not in (2, 3) or sys.argv[1].startswith("-"):
        sys.exit(__doc__)
    uses = os.path.abspath(sys.argv[1])
    times = int(sys.argv[2]) if len(sys.argv) == 3 else 5
    with tempfile.TemporaryDirectory() as folder:
        rows = [measured(uses, folder, times, row) for row in ROWS]
    runs.table(["Devices", "Observations", "pmax", "Seconds", "Ticks", "All ms", "A tick", "Notifications",
                "A notification"], rows)


if __name__ == "__main__":
    main()
