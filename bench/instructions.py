#!/usr/bin/env python3
"""Counts the instructions of a step of the serial run, by kinds of steps, with callgrind.

    bench/instructions.py USES [KIND]

USES is the built program crates/fleet_workers_uses/out/fleet_workers_uses. For each kind, 64 devices make 100 steps
each: mixed steps, reads, ticks, writes, tlv-writes, puts, posts (runs.py says what they are). From the instructions of
such a run those of reading the image and starting the devices are taken away. With a KIND it prints besides what each
function takes of a step of that kind, itself, where that is one instruction or more. The counts are the same whatever
else the machine does. It needs Debian's valgrind.
"""
import collections
import os
import re
import shutil
import subprocess
import sys
import tempfile

import runs

DEVICES, EACH = 64, 100
KINDS = {
    "mixed": runs.mixed(EACH),
    "reads": runs.reads(EACH),
    "ticks": runs.ticks(EACH),
    "writes": runs.writes(EACH),
    "tlv-writes": runs.tlv_writes(EACH),
    "puts": [runs.put(100 - number % 100) for number in range(EACH)],
    "posts": runs.posts(EACH),
}
LINE = re.compile(r"\s*([\d,]+) \([^)]*\)\s+\S*?:(.*?)(?: \[.*)?")


def counted(uses, folder, kind, word):
    """The instructions of a run, by function; the word is `start` or `serial`."""
    given, out = os.path.join(folder, f"{kind}-{word}"), os.path.join(folder, "out")
    with open(given, "w", encoding="ascii") as file:
        file.write(f"{word}\n{runs.image([KINDS[kind]] * DEVICES).hex()}\n")
    with open(given, "rb") as file:
        words = ["valgrind", "--tool=callgrind", f"--callgrind-out-file={out}", uses]
        subprocess.run(words, stdin=file, capture_output=True, check=True)
    listed = subprocess.run(["callgrind_annotate", "--threshold=100", out], capture_output=True, text=True, check=True)
    found = collections.Counter()
    for line in listed.stdout.splitlines():
        match = LINE.fullmatch(line)
        if match:
            found[match[2]] += int(match[1].replace(",", ""))
    return found


def main():
    if len(sys.argv) not in (2, 3) or not set(sys.argv[2:]) <= set(KINDS):
        sys.exit(__doc__)
    if not shutil.which("valgrind"):
        sys.exit("bench/instructions.py: there is no valgrind: apt-get install valgrind")
    uses = os.path.abspath(sys.argv[1])
    with tempfile.TemporaryDirectory() as folder:
        for kind in KINDS:
            step = counted(uses, folder, kind, "serial")
            step.subtract(counted(uses, folder, kind, "start"))
            print(f"{kind}: {step.total() / (DEVICES * EACH):.0f} instructions a step", flush=True)
            for name, count in step.most_common():
                if [kind] == sys.argv[2:] and count >= DEVICES * EACH:
                    print(f"{count / (DEVICES * EACH):8.0f}  {name}")


if __name__ == "__main__":
    main()
