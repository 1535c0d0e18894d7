#!/usr/bin/env python3
"""Measures what one step, or one command, costs as what it stands on grows: three sizes of each.

    bench/growth.py USES LWBENCH [TIMES] [NAME ..]

USES and LWBENCH are the built programs, crates/fleet_workers_uses/out/fleet_workers_uses and
crates/lwbench/out/lwbench. A row of the table that is printed is the least processor time of TIMES rounds (3) of a run,
serial or by one worker, or of `debug`, less that of the same without the steps or commands that are measured, divided
by how many these are. CURVES says what each is; with names, these alone are measured. Each scenario is of one class,
written as text; Python's standard library is all that the script needs.
"""
import os
import subprocess
import sys
import tempfile

from runs import once, table

# A device with a battery level, and two objects of its own: 10241, whose instances are created, and 10242, which is
# filled as far as a curve wants.
CLASS = ["scenario 1", "class", "account 1", "object 10241", "def 0 rw single optional integer"]
OF_CLASS = ["instance 3 0", "value /3/0/9 integer 100"]


def scenario(resources, values, rows):
    """The text of a scenario with these resources of object 10242, these instances and values, and these rows."""
    lines = [*CLASS, "object 10242", *(f"def {it} rw single optional opaque" for it in resources), *OF_CLASS, *values]
    for steps in rows:
        lines += ["device 0", *steps]
    return "".join(f"{it}\n" for it in lines)


def held(count, length):
    """Instances of object 10242 with so many values together, each of so many bytes, 64 an instance at most."""
    for number in range(count):
        if number % 64 == 0:
            yield f"instance 10242 {number // 64}"
        yield f"value /10242/{number // 64}/{number % 64} opaque {'5A' * length}"


def numbered(lines):
    """These steps, in each of which {} stands for a message ID of its own."""
    return [it.format(number) for number, it in enumerate(lines)]


# A device is started at its first step, so each row that is measured begins with one.
START = ["tick 1"]


def create(size):
    """A Create, and the Delete of the instance, in a store of so many values."""
    own = ["create 1 con {} - /10241 tlv C10007", "delete 1 con {} - /10241/0"] * 1000
    return [scenario(range(64), held(size, 16), [numbered(START + it)]) for it in ([], own)], 1000


def attributes(size):
    """A Write-Attributes, where so many numbers are set."""
    first = [f"attr 1 con {{}} - /10242/{it // 64}/{it % 64} pmin=5" for it in range(size)]
    own = ["attr 1 con {} - /3/0/9 pmin=7", "attr 1 con {} - /3/0/9 pmin=8"] * 1000
    return [scenario(range(64), held(size, 1), [numbered(first + it)]) for it in ([], own)], 2000


def long_read(size):
    """A Read of so many values of 1,024 bytes, which is too long."""
    own = ["read 1 con {} - /10242 any"] * 2000
    return [scenario(range(64), held(size, 1024), [numbered(START + it)]) for it in ([], own)], 2000


def long_discover(size):
    """A Discover of so many resources, which is too long."""
    own = ["discover 1 con {} - /10242"] * 2000
    return [scenario(range(64), held(size, 1), [numbered(START + it)]) for it in ([], own)], 2000


def observations(size):
    """An observation that is registered again, where there are so many."""
    first = [f"observe 1 con {{}} {it:016X} /10242/0/{it} any" for it in range(size)]
    own = [f"observe 1 con {{}} {size - 1:016X} /10242/0/{size - 1} any"] * 4000
    return [scenario(range(64), held(64, 1), [numbered(first + it)]) for it in ([], own)], 4000


def posts(size):
    """A post that the last device waits for, or the first, where so many between them wait for another group."""
    def rows(count):
        first = [step for it in range(count) for step in ("post 1", f"need 2 {it + 1}")]
        last = [step for it in range(count) for step in (f"need 1 {it + 1}", "post 2")]
        return [[*first, "post 9"], *[["need 9 1"]] * size, last]

    return [scenario([], [], rows(it)) for it in (1, 1001)], 2000


# What each curve grows by, its sizes, and what makes the run: `serial`, or one worker with batches of one step.
RUNS = {
    "create": (create, "values held", (64, 512, 4096), "serial"),
    "attributes": (attributes, "numbers set", (16, 256, 2048), "serial"),
    "long read": (long_read, "values of 1,024 bytes", (64, 512, 4096), "serial"),
    "long discover": (long_discover, "resources", (64, 512, 4096), "serial"),
    "observations": (observations, "observations", (1, 8, 32), "serial"),
    "posts": (posts, "devices that wait", (64, 1024, 16382), "serial"),
    "worker's posts": (posts, "devices that wait", (64, 1024, 16382), "one 1"),
}


def session(rows):
    """The text of a scenario of so many devices, each of which is read, waits for a second and is set, four times."""
    steps = [f"read 1 con {it} - /3/0/9 any" if it % 3 == 0 else "tick 1" if it % 3 == 1 else
             f"put /3/0/9 integer {it}" for it in range(12)]
    return scenario([], [], [steps] * rows)


def moves(total):
    return [f"forward {total // 2}"], ["forward 1", "back 1"] * 5000, 10_000


def outputs(total):
    return [f"forward {total}"], ["out 0"] * 200_000, 200_000


def resumes(total):
    """Resumed four times, past 63 breakpoints that hold nowhere, to each read of the first device, and taken back."""
    never = [f"break code {total // 12 - 1} 84"] * 63
    return [*never, "break code 0 45"], [*["resume"] * 4, "back 10"] * 500, 2000


# By the number of devices, each with 12 steps. `open` is `debug` without a command, and `check` is of the same files,
# both by entry of the trace.
COMMANDS = {"move": moves, "out": outputs, "resume": resumes}
ROWS = (64, 1024, 16384)
CURVES = [*RUNS, *COMMANDS, "open", "check"]


def assembled(lwbench, folder, text):
    """The image of a scenario's text, in a file."""
    files = [os.path.join(folder, it) for it in ("text", "image")]
    with open(files[0], "w", encoding="ascii") as out:
        out.write(text)
    subprocess.run([lwbench, "asm", *files], check=True, stdout=subprocess.DEVNULL)
    return files[1]


def count_of(image_text):
    """How many steps the rows of a scenario's text have."""
    lines = image_text.split("\n")
    begun = lines.index("device 0")
    return sum(it not in ("", "device 0") for it in lines[begun:])


def run_least(uses, lwbench, folder, text, kind, times):
    """The least processor seconds of a run of a scenario."""
    given = os.path.join(folder, "given")
    with open(assembled(lwbench, folder, text), "rb") as data, open(given, "w", encoding="ascii") as out:
        out.write(f"{kind}\n{data.read().hex()}\n")
    return min(once([uses], f"steps {count_of(text)}\n", given)[1] for _ in range(times))


def debug_least(lwbench, files, commands, times):
    """The least processor seconds of `debug` with these commands, whose answers are not looked at."""
    given = files[0] + ".commands"
    with open(given, "w", encoding="ascii") as out:
        out.writelines(f"{it}\n" for it in commands)
    least = float("inf")
    for _ in range(times):
        with open(given, "rb") as source:
            child = subprocess.Popen([lwbench, "debug", *files], stdin=source, stdout=subprocess.DEVNULL)
            _, status, usage = os.wait4(child.pid, 0)
        if status:
            sys.exit(f"debug ended with {status}")
        least = min(least, usage.ru_utime + usage.ru_stime)
    return least


def rows_of_runs(uses, lwbench, folder, name, times):
    make, grows_by, sizes, kind = RUNS[name]
    for size in sizes:
        (without, whole), count = make(size)
        taken = [run_least(uses, lwbench, folder, it, kind, times) for it in (without, whole)]
        yield [name, grows_by, f"{size:,}", f"{(taken[1] - taken[0]) / count * 1e6:.2f}"]


def rows_of_commands(lwbench, folder, names, times):
    for rows in ROWS:
        files = [assembled(lwbench, folder, session(rows)), os.path.join(folder, "trace")]
        subprocess.run([lwbench, "run", files[0], "--trace", files[1], "--workers", "1"], check=True,
                       stdout=subprocess.DEVNULL)
        for name in names:
            if name in COMMANDS:
                first, own, count = COMMANDS[name](rows * 12)
                taken = [debug_least(lwbench, files, it, times) for it in (first, first + own)]
                each = (taken[1] - taken[0]) / count
            elif name == "open":
                each = debug_least(lwbench, files, [], times) / (rows * 12)
            else:
                each = min(once([lwbench, "check", *files], "run\n")[1] for _ in range(times)) / (rows * 12)
            yield [name, "devices", f"{rows:,}", f"{each * 1e6:.2f}"]


def main():
    words = sys.argv[1:]
    if len(words) < 2 or words[0].startswith("-"):
        sys.exit(__doc__)
    uses, lwbench = (os.path.abspath(it) for it in words[:2])
    times = int(words[2]) if len(words) > 2 else 3
    names = words[3:] or CURVES
    found = []
    with tempfile.TemporaryDirectory() as folder:
        for name in RUNS:
            if name in names:
                found += rows_of_runs(uses, lwbench, folder, name, times)
        found += sorted(rows_of_commands(lwbench, folder, [it for it in names if it not in RUNS], times),
                        key=lambda it: CURVES.index(it[0]))
    table(["What", "Of", "Size", "Each µs"], found)


if __name__ == "__main__":
    main()
