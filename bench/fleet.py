#!/usr/bin/env python3
"""Measures `lwbench fleet`: what requests and notifications cost, how soon devices are ready, what they take at rest.

    bench/fleet.py LWBENCH [DEVICES ..]

LWBENCH is the built program; DEVICES are how many devices, 1, 100, 1,000 and 10,000 if none is given. A client, a
process of its own on this machine, reads the battery level of one device after another, 64 reads on their way at a
time, 60,000 in all. Beside the fleet stand one device of `lwbench live`, and sockets in plain Rust that answer each
datagram with its first bytes (bench/echo.rs, which rustc compiles). The processor time is that of the process with the
devices, by /proc. README.md says what the columns are. Then each device is observed, and its value changes each second
(`--play --loop`), so that each sends a notification a second, for 20 seconds. It ends by itself, in some six minutes:
most is the minute in which 10,000 devices get nothing.
"""
import os
import pathlib
import resource
import socket
import struct
import subprocess
import sys
import tempfile
import time

REQUESTS, WINDOW, REST, PORT, OBSERVED = 60_000, 64, 60, 20_000, 20
CLASS = """scenario 1
class
account 1
instance 3 0
value /3/0/9 integer 100
"""
# the value of a device is 1 in one second, and 2 in the next one
CHANGES = "tick 1\nput /3/0/9 integer 1\ntick 1\nput /3/0/9 integer 2\n"
TICKS = os.sysconf("SC_CLK_TCK")


def processor_seconds(process):
    fields = pathlib.Path(f"/proc/{process.pid}/stat").read_text().rpartition(")")[2].split()
    return (int(fields[11]) + int(fields[12])) / TICKS


def resident(process):
    return int(pathlib.Path(f"/proc/{process.pid}/statm").read_text().split()[1]) * resource.getpagesize()


def ask(devices, count):
    """Reads the devices in turn; the seconds that it took, and how many requests got no reply."""
    peer = socket.socket(socket.AF_INET, socket.SOCK_DGRAM)
    peer.setsockopt(socket.SOL_SOCKET, socket.SO_RCVBUF, 1 << 22)
    peer.bind(("127.0.0.1", 0))
    peer.settimeout(1)
    places = [("127.0.0.1", PORT + device) for device in range(devices)]
    sent = waiting = 0
    began = time.monotonic()
    while sent < count or waiting:
        while sent < count and waiting < WINDOW:
            mid = sent // devices % 65536
            peer.sendto(b"\x40\x01" + struct.pack(">H", mid) + b"\xb1\x33\x01\x30\x01\x39", places[sent % devices])
            sent, waiting = sent + 1, waiting + 1
        try:
            peer.recv(2000)
            waiting -= 1
        except socket.timeout:
            break
    return time.monotonic() - began, waiting


def observe(devices):
    """Observes the value of each device, WINDOW requests on their way at a time; the socket that did so."""
    peer = socket.socket(socket.AF_INET, socket.SOCK_DGRAM)
    peer.setsockopt(socket.SOL_SOCKET, socket.SO_RCVBUF, 1 << 24)
    peer.bind(("127.0.0.1", 0))
    peer.settimeout(1)
    for device in range(devices):
        token = struct.pack(">H", device)
        peer.sendto(b"\x42\x01\x00\x01" + token + b"\x60\x51\x33\x01\x30\x01\x39", ("127.0.0.1", PORT + device))
        if device % WINDOW == WINDOW - 1:
            time.sleep(0.001)
    return peer


def notified(process, devices):
    """How many notifications came from the devices in OBSERVED seconds, and what the process took for each."""
    peer = observe(devices)
    time.sleep(2)
    peer.setblocking(False)
    count, until, before = 0, time.monotonic() + OBSERVED, processor_seconds(process)
    while time.monotonic() < until:
        try:
            while peer.recv(2000):
                count += 1
        except BlockingIOError:
            time.sleep(0.001)
    each = (processor_seconds(process) - before) / max(count, 1)
    print(f"| {devices} | {count / OBSERVED:,.0f} | {each * 1e6:.1f} µs |", flush=True)


def started(words, line):
    """A process that says this on standard error once it listens, and the seconds until then."""
    began = time.monotonic()
    # (a fleet ends when its standard input does)
    how = {"stdin": subprocess.PIPE, "stdout": subprocess.DEVNULL, "stderr": subprocess.PIPE}
    process = subprocess.Popen(words, **how)
    said = process.stderr.readline()
    if line not in said:
        sys.exit(f"{words}: {said!r}")
    return process, time.monotonic() - began


def measured(name, process, devices):
    before = processor_seconds(process)
    seconds, unanswered = ask(devices, REQUESTS)
    used = processor_seconds(process) - before
    each = f"{REQUESTS / seconds:,.0f} | {used / REQUESTS * 1e6:.1f} µs"
    print(f"| {name} | {devices} | {each} | {unanswered} |", flush=True)


def main():
    if len(sys.argv) < 2:
        sys.exit(__doc__)
    lwbench, sizes = os.path.abspath(sys.argv[1]), [int(it) for it in sys.argv[2:]] or [1, 100, 1000, 10000]
    _, most = resource.getrlimit(resource.RLIMIT_NOFILE)
    resource.setrlimit(resource.RLIMIT_NOFILE, (most, most))
    rows = []
    with tempfile.TemporaryDirectory() as folder:
        echo = pathlib.Path(__file__).resolve().parent / "echo.rs"
        subprocess.run(["rustc", "-O", "-o", f"{folder}/echo", echo], check=True)
        scenario, image = f"{folder}/devices", f"{folder}/image"
        print("| What | Devices | Requests a second | Processor time a request | Without a reply |")
        print("|---|---|---|---|---|")
        pathlib.Path(scenario).write_text(CLASS + "device 0\n", encoding="ascii")
        subprocess.run([lwbench, "asm", scenario, image], check=True, stdout=subprocess.DEVNULL)
        process = subprocess.Popen([lwbench, "live", image, "0", str(PORT), "100000"], stdout=subprocess.DEVNULL)
        time.sleep(1)
        measured("`live`", process, 1)
        process.kill()
        process.wait()
        for devices in sizes:
            process, _ = started([f"{folder}/echo", str(PORT), str(devices)], b"ready")
            measured("echo", process, devices)
            process.kill()
            process.wait()
            pathlib.Path(scenario).write_text(CLASS + "device 0\n" * devices, encoding="ascii")
            process, ready = started([lwbench, "fleet", scenario, str(PORT)], b"ready")
            # (the first turn is over then)
            time.sleep(2)
            memory = resident(process)
            measured("`fleet`", process, devices)
            before = processor_seconds(process)
            time.sleep(REST if devices == sizes[-1] else 5)
            rest = (processor_seconds(process) - before) / (REST if devices == sizes[-1] else 5)
            rows.append((devices, ready, memory, rest))
            process.kill()
            process.wait()
    print("\n| Devices | Notifications a second | Processor time a notification |\n|---|---|---|", flush=True)
    with tempfile.TemporaryDirectory() as folder:
        scenario = f"{folder}/devices"
        pathlib.Path(scenario).write_text(CLASS + "device 0\n" + CHANGES, encoding="ascii")
        for devices in sizes:
            words = ["--copies", str(devices), "--play", "--loop"]
            process, _ = started([lwbench, "fleet", scenario, str(PORT), *words], b"ready")
            notified(process, devices)
            process.kill()
            process.wait()
    print("\n| Devices | Ready after | Memory of the process | Processor at rest |\n|---|---|---|---|")
    for devices, ready, memory, rest in rows:
        print(f"| {devices} | {ready * 1000:.0f} ms | {memory / 1e6:.1f} MB | {rest * 100:.2f} % |")


if __name__ == "__main__":
    main()
