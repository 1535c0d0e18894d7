#!/usr/bin/env python3
"""Measures runs: serial, and of one, two, four and 64 workers; `check` of their traces; memory.

    bench/runs.py USES LWBENCH [TIMES]
    bench/runs.py --notified USES LWBENCH [TIMES]

USES and LWBENCH are the built programs, crates/fleet_workers_uses/out/fleet_workers_uses and
crates/lwbench/out/lwbench. The script writes each scenario's image itself, in a folder of its own, lets the programs
run in TIMES rounds (3) over all scenarios, and prints two tables with the least times of all rounds. With --notified it
prints one, of serial runs alone: of devices that notify, by NON, by CON with an acknowledgement for each notification,
and by CON without one. Python's standard library is all that it needs. README.md says what the scenarios and the
columns are.
"""
import os
import resource
import struct
import subprocess
import sys
import tempfile
import time

# What a script measures that imports this one runs as `./lwbench` lets it: with large pages for large pieces of memory.
os.environ.setdefault("GLIBC_TUNABLES", "glibc.malloc.hugetlb=1")

SERVER = 1
BATTERY = (3, 0, 9)


def u16(number):
    return struct.pack(">H", number)


def whole(number):
    """A whole number, as a value of an image."""
    return b"\x01" + struct.pack(">q", number)


def path(numbers):
    return b"".join(u16(number) for number in numbers) + b"\x00"


# How the devices of a class notify: by NON, or by CON with a first timeout of 2 seconds.
NON, CON = 0, 2


def device_class(notify):
    """A device of server 1, with a battery level of 100, that notifies so."""
    account = b"\x01" + u16(SERVER)
    objects = b"\x00"
    instances = u16(1) + u16(3) + u16(0)
    values = u16(1) + path(BATTERY) + whole(100)
    return bytes([notify]) + account + objects + instances + values


def received(datagram):
    return b"\x01" + u16(SERVER) + u16(len(datagram)) + datagram


def read(mid):
    """A confirmable GET of /3/0/9."""
    return received(bytes([0x40, 0x01]) + u16(mid) + b"\xb1\x33\x01\x30\x01\x39")


def observed(token):
    """A confirmable GET of /3/0/9 with Observe 0, whose message ID is the token, of one byte."""
    return received(bytes([0x41, 0x01]) + u16(token) + bytes([token]) + b"\x60\x51\x33\x01\x30\x01\x39")


def acknowledgement(mid):
    """An Empty ACK."""
    return received(b"\x60\x00" + u16(mid))


def write(mid, path, payload):
    """A confirmable PUT at the path that these option bytes are, whose payload follows its Content-Format."""
    return received(bytes([0x40, 0x03]) + u16(mid) + path + payload)


def write_text(mid):
    """A Write of /3/0/14, the UTC Offset, as plain text."""
    return write(mid, b"\xb1\x33\x01\x30\x02\x31\x34\x10\xff", b"+02:00")


def write_tlv(mid):
    """A Write of /3/0 as TLV: the UTC Offset and the Timezone."""
    return write(mid, b"\xb1\x33\x01\x30\x12\x2d\x16\xff", b"\xc6\x0e+02:00\xc8\x0f\x0dEurope/Berlin")


def tick():
    return b"\x02" + struct.pack(">I", 1)


def put(level):
    return b"\x03" + path(BATTERY) + whole(level)


def mixed(count):
    """Reads with rising message IDs, a second, and a put, in turn."""
    steps = []
    for number in range(count):
        kind = number % 4
        if kind == 2:
            steps.append(tick())
        elif kind == 3:
            steps.append(put(100 - number % 100))
        else:
            steps.append(read(number))
    return steps


def reads(count):
    """Reads alone, with rising message IDs, in one second."""
    return [read(number) for number in range(count)]


def writes(count):
    """Writes of a text alone, with rising message IDs, in one second."""
    return [write_text(number) for number in range(count)]


def tlv_writes(count):
    """The same of an instance, with two records of TLV."""
    return [write_tlv(number) for number in range(count)]


def post(group):
    return b"\x05" + bytes([group])


def posts(count):
    return [post(0)] * count


def notified(count, is_acknowledged):
    """An observation, and then as often as said another level and the second in which it is sent, which may be
    acknowledged; the message IDs of notifications count from 0."""
    steps = [observed(0)]
    for number in range(count):
        steps += [put(number % 100), tick()]
        if is_acknowledged:
            steps.append(acknowledgement(number))
    return steps


def image(rows, notify=NON):
    """The image of these rows, all of the one class, whose devices notify so."""
    parts = [struct.pack(">IB", 0x4C575343, 2), u16(1), device_class(notify), u16(len(rows))]
    for steps in rows:
        parts.append(u16(0) + u16(len(steps)))
        parts.extend(steps)
    return b"".join(parts)


def ticks(count):
    return [tick()] * count


# Less time than this, in seconds, tells nothing of a step.
SHORTEST = 0.0005

# A trace of no entries.
EMPTY = struct.pack(">IBI", 0x4C575452, 1, 0)

# The runs of workers: one, two, four or 64 (all), with batches of at most this many steps.
RUNS = [f"{workers} {batch}" for workers in ("one", "two", "four", "all") for batch in (1, 16, 64)]

# One worker without threads: one that claims each device once and makes its row in a single batch, and one that claims
# and puts as often as there are steps, and makes none.
ALONE = ["rows", "visits"]


def serial_scenarios():
    """Name, and the steps of each device, of the scenarios that the serial run makes."""
    for devices in (512, 1024, 2048, 4096):
        yield "mixed", devices, mixed(100)
    for steps in (25, 200, 800):
        yield "mixed", 1024, mixed(steps)
    for steps in (1024, 4096):
        yield "mixed", 1, mixed(steps)
    for steps in (1024, 4096):
        yield "reads", 1, reads(steps)
    for steps in (100, 400):
        yield "ticks", 4096, ticks(steps)
    yield "posts", 4096, posts(100)


def worker_scenarios():
    """The same, of the scenarios that workers make."""
    yield "mixed", 4096, mixed(100)
    yield "mixed", 16384, mixed(100)
    yield "ticks", 4096, ticks(100)


def notified_scenarios():
    """The same, and how its devices notify, of those of --notified."""
    for devices, count in ((1024, 64), (1, 1024)):
        yield "nons", devices, notified(count, False), NON
        yield "cons", devices, notified(count, True), CON
    yield "unanswered", 1024, notified(64, False), CON


def write_apart(path, steps, devices, notify=NON):
    """Writes the image, and its hexadecimal, from a process of its own: what this one had in memory would count as the
    program's."""
    child = os.fork()
    if child == 0:
        with open(path, "wb") as out:
            out.write(image([steps] * devices, notify))
        for kind in ["image", "start", "serial", *RUNS, *ALONE]:
            with open(path, "rb") as data, open(f"{path}-{kind.replace(' ', '-')}", "w", encoding="ascii") as out:
                out.write(f"{kind}\n{data.read().hex()}\n")
        os._exit(0)
    if os.waitpid(child, 0)[1] != 0:
        sys.exit(f"{path} was not written")


def once(command, wanted, given=os.devnull):
    """Seconds by the clock until its line is there, seconds of processors and KiB of memory until its end, of one run,
    which has to print just this line."""
    with open(given, "rb") as source:
        begun = time.monotonic()
        child = subprocess.Popen(command, stdin=source, stdout=subprocess.PIPE)
        line = child.stdout.readline().decode()
        taken = time.monotonic() - begun
        line += child.stdout.read().decode()
        _, status, usage = os.wait4(child.pid, 0)
    child.returncode = os.waitstatus_to_exitcode(status)
    child.stdout.close()
    if child.returncode != 0 or line != wanted:
        sys.exit(f"{command} < {given}: status {child.returncode}, {line!r} in place of {wanted!r}")
    return taken, usage.ru_utime + usage.ru_stime, usage.ru_maxrss


class Least:
    """The least seconds, by the clock and of processors, and the most KiB of memory of several runs."""

    def __init__(self):
        self.clock, self.seconds, self.memory = float("inf"), float("inf"), 0

    def add(self, run):
        self.clock, self.seconds = min(self.clock, run[0]), min(self.seconds, run[1])
        self.memory = max(self.memory, run[2])

    def mebibytes(self):
        """The memory, where it can be told: a child counts what this process had at its start."""
        own = resource.getrusage(resource.RUSAGE_SELF).ru_maxrss
        return f"{self.memory / 1024:.1f}" if self.memory > own + 1024 else "-"


def row(cells):
    print("| " + " | ".join(cells) + " |")


def table(columns, rows):
    row(columns)
    row(["---"] * len(columns))
    for cells in rows:
        row(cells)
    print(flush=True)


def ms(seconds):
    return f"{seconds * 1e3:.1f}"


def a_step(seconds, total):
    return f"{seconds / total * 1e6:.2f} µs" if seconds > SHORTEST else "-"


class Measured:
    """A scenario in files, and what its runs took."""

    def __init__(self, folder, scenario):
        self.name, self.devices, steps, *notify = scenario
        self.each, self.total = len(steps), self.devices * len(steps)
        self.file = os.path.join(folder, f"{self.name}-{self.devices}-{self.each}")
        self.least = {}
        write_apart(self.file, steps, self.devices, *notify)

    def add(self, kind, run):
        self.least.setdefault(kind, Least()).add(run)

    def make(self, uses, kind):
        steps = 0 if kind in ("image", "start") else self.total
        self.add(kind, once([uses], f"steps {steps}\n", f"{self.file}-{kind.replace(' ', '-')}"))

    def check(self, lwbench, empty):
        """`check` over the trace of a run, and over an empty one, from which the former is counted."""
        trace = self.file + ".trace"
        if not os.path.exists(trace):
            once([lwbench, "run", self.file, "--trace", trace], f"done {self.total}\n")
        self.add("empty", once([lwbench, "check", self.file, empty], "run\n"))
        self.add("check", once([lwbench, "check", self.file, trace], "run\n"))

    def serial_row(self):
        start, run, check, empty = (self.least[kind] for kind in ("start", "serial", "check", "empty"))
        sizes = [f"{os.path.getsize(it) / 2**20:.2f}" for it in (self.file, self.file + ".trace")]
        return [self.name, str(self.devices), str(self.each), ms(start.seconds), ms(run.seconds),
                a_step(run.seconds - start.seconds, self.total), a_step(check.seconds - empty.seconds, self.total),
                *sizes, start.mebibytes(), run.mebibytes()]

    def worker_row(self, kind):
        image, run = self.least["image"], self.least[kind]
        clock = run.clock - image.clock
        return [self.name, str(self.devices), kind, ms(clock), f"{self.total / clock:,.0f}" if clock > SHORTEST else "-",
                a_step(run.seconds - image.seconds, self.total), run.mebibytes()]


def measure_serial(uses, lwbench, folder, scenarios, times):
    """Prints the table of the serial runs of these scenarios."""
    empty = os.path.join(folder, "empty")
    with open(empty, "wb") as out:
        out.write(EMPTY)
    serial = [Measured(folder, it) for it in scenarios]
    for _ in range(times):
        for it in serial:
            it.make(uses, "start")
            it.make(uses, "serial")
            it.check(lwbench, empty)
    table(["Steps", "Devices", "Each", "Start ms", "Run ms", "A step", "A step of check", "Image", "Trace",
           "Start MiB", "Run MiB"], [it.serial_row() for it in serial])


def measure_workers(uses, folder, times):
    """Prints the table of the runs of workers."""
    workers = [Measured(folder, it) for it in worker_scenarios()]
    kinds = ["serial", *RUNS, *ALONE]
    for _ in range(times):
        for it in workers:
            for kind in ["image", *kinds]:
                it.make(uses, kind)
    table(["Steps", "Devices", "Run", "Clock ms", "Steps/s", "A step", "MiB"],
          [it.worker_row(kind) for it in workers for kind in kinds])


def main():
    words = sys.argv[1:]
    is_notified = words[:1] == ["--notified"]
    if is_notified:
        words = words[1:]
    if len(words) not in (2, 3) or words[0].startswith("-"):
        sys.exit(__doc__)
    uses, lwbench = (os.path.abspath(it) for it in words[:2])
    times = int(words[2]) if len(words) == 3 else 3
    with tempfile.TemporaryDirectory() as folder:
        if is_notified:
            measure_serial(uses, lwbench, folder, notified_scenarios(), times)
        else:
            measure_serial(uses, lwbench, folder, serial_scenarios(), times)
            measure_workers(uses, folder, times)


if __name__ == "__main__":
    main()
