#!/usr/bin/env python3
"""Measures what prints a trace: `show`, `show --json`, `show --why`, `pcap` and `check`.

    bench/show.py LWBENCH [TIMES]

LWBENCH is the built program. The trace is that of 4,096 devices with 100 mixed steps each (bench/runs.py), which the
script makes in a folder of its own. It prints the least processor time of TIMES rounds (3) of each command, and the
bytes that it writes. README.md has the figures.
"""
import os
import pathlib
import resource
import subprocess
import sys
import tempfile

sys.dont_write_bytecode = True
sys.path.insert(0, str(pathlib.Path(__file__).resolve().parent))
import runs  # noqa: E402


def seconds_of(words, out, statuses=(0,)):
    """The processor time of a command that ends with one of these statuses; what it prints goes to a file."""
    before = resource.getrusage(resource.RUSAGE_CHILDREN)
    with open(out, "wb") as output:
        status = subprocess.run(words, stdout=output).returncode
    if status not in statuses:
        sys.exit(f"{words}: status {status}")
    after = resource.getrusage(resource.RUSAGE_CHILDREN)
    return after.ru_utime - before.ru_utime + after.ru_stime - before.ru_stime


def main():
    if len(sys.argv) not in (2, 3):
        sys.exit(__doc__)
    lwbench, times = os.path.abspath(sys.argv[1]), int(sys.argv[2]) if len(sys.argv) == 3 else 3
    with tempfile.TemporaryDirectory() as folder:
        image, trace, out = f"{folder}/image", f"{folder}/trace", f"{folder}/out"
        pathlib.Path(image).write_bytes(runs.image([runs.mixed(100)] * 4096))
        made = [lwbench, "run", image, "--workers", "1", "--trace", trace]
        subprocess.run(made, stdout=subprocess.DEVNULL, check=True)
        for name, more in (("show", []), ("show", ["--json"]), ("show", ["--why"]), ("pcap", [out]), ("check", [])):
            text = f"{folder}/text"
            least = min(seconds_of([lwbench, name, image, trace, *more], text) for _ in range(times))
            size = os.path.getsize(out if name == "pcap" else text)
            print(f"{' '.join([name, *more[: name == 'show']])}: {least:.2f} s, {size:,} bytes", flush=True)


if __name__ == "__main__":
    main()
