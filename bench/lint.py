#!/usr/bin/env python3
"""Measures what goes through a recorded session: `lint`, and `test --on`.

    bench/lint.py LWBENCH [TIMES]

LWBENCH is the built program. The sessions have 1,024, 4,096 and 16,384 rows of 100 datagrams: 50 requests, each with its
reply. `reads` are 50 Reads with tokens of their own; `renewed` is one observation that is registered anew each 70 s, by
one token; `begun and ended` are 25 observations, all of which live before the first is cancelled. `lint` goes by all
rules, `test` has a file of 50 lines for each row, all of which are met. It prints the least processor time of TIMES
rounds (3). README.md has the figures.
"""
import os
import pathlib
import subprocess
import sys
import tempfile

sys.dont_write_bytecode = True
sys.path.insert(0, str(pathlib.Path(__file__).resolve().parent))
from show import seconds_of  # noqa: E402

CLASS = "scenario 1\nclass\naccount 1\ninstance 3 0\nvalue /3/0/9 integer 100\n"
SESSIONS = {
    "reads": [f"read 1 con {it} {it:04X} /3/0/9 any" for it in range(50)],
    "renewed": [line for it in range(50) for line in (f"observe 1 con {it} AA /3/0/9 any", "tick 70")],
    "begun and ended": [f"observe 1 con {it} {it:04X} /3/0/9 any" for it in range(25)]
    + [f"cancel 1 con {it + 25} {it:04X} /3/0/9 any" for it in range(25)],
}
EXPECTED = "case reads\n" + "<= 1 read /3/0/9\n" * 50


def main():
    if len(sys.argv) not in (2, 3):
        sys.exit(__doc__)
    lwbench, times = os.path.abspath(sys.argv[1]), int(sys.argv[2]) if len(sys.argv) == 3 else 3
    with tempfile.TemporaryDirectory() as folder:
        text, image, expected = f"{folder}/text", f"{folder}/image", f"{folder}/expected"
        pathlib.Path(expected).write_text(EXPECTED, encoding="ascii")
        for name, steps in SESSIONS.items():
            for rows in (1024, 4096, 16384):
                row = "device 0\n" + "".join(f"{it}\n" for it in steps)
                pathlib.Path(text).write_text(CLASS + row * rows, encoding="ascii")
                subprocess.run([lwbench, "asm", text, image], stdout=subprocess.DEVNULL, check=True)
                least = min(seconds_of([lwbench, "lint", image], os.devnull, (0, 3)) for _ in range(times))
                print(f"lint, {name}, {rows:,} rows: {least:.2f} s", flush=True)
                if name == "reads":
                    words = [lwbench, "test", expected, "--on", image]
                    least = min(seconds_of(words, os.devnull) for _ in range(times))
                    print(f"test --on, {name}, {rows:,} rows: {least:.2f} s", flush=True)


if __name__ == "__main__":
    main()
