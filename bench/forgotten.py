#!/usr/bin/env python3
"""Measures what recorded requests take: the memory of `lwbench fleet` with 10,000 devices after Reads, and later.

    bench/forgotten.py LWBENCH

LWBENCH is the built program. A client reads the battery level of each device, once and then 49 times more. 250 seconds
later, when no message ID is in use any longer (RFC 7252 section 4.8.2), it reads each once more: an event of a device
lets it forget, and gives the memory back. Prints the memory of the process, by /proc, and what each device took beyond
its start. It ends by itself, in some five minutes.
"""
import os
import pathlib
import resource
import socket
import struct
import sys
import tempfile
import time

import fleet

DEVICES, PORT, LIFETIME = 10_000, 20_000, 250


def read(peer, mids):
    """Reads each device with each message ID, WINDOW requests on their way at a time."""
    asked = [(mid, device) for mid in mids for device in range(DEVICES)]
    waiting = 0
    for mid, device in asked:
        peer.sendto(b"\x40\x01" + struct.pack(">H", mid) + b"\xb1\x33\x01\x30\x01\x39", ("127.0.0.1", PORT + device))
        waiting += 1
        if waiting == fleet.WINDOW:
            peer.recv(2000)
            waiting -= 1
    for _ in range(waiting):
        peer.recv(2000)


def main():
    if len(sys.argv) != 2:
        sys.exit(__doc__)
    _, most = resource.getrlimit(resource.RLIMIT_NOFILE)
    resource.setrlimit(resource.RLIMIT_NOFILE, (most, most))
    peer = socket.socket(socket.AF_INET, socket.SOCK_DGRAM)
    peer.setsockopt(socket.SOL_SOCKET, socket.SO_RCVBUF, 1 << 22)
    peer.bind(("127.0.0.1", 0))
    peer.settimeout(5)
    with tempfile.TemporaryDirectory() as folder:
        scenario = f"{folder}/devices"
        pathlib.Path(scenario).write_text(fleet.CLASS + "device 0\n" * DEVICES, encoding="ascii")
        process, _ = fleet.started([os.path.abspath(sys.argv[1]), "fleet", scenario, str(PORT)], b"ready")
        try:
            # (the first turn is over then)
            time.sleep(2)
            start = fleet.resident(process)
            print("| When | Memory of the process | A device, beyond its start |\n|---|---|---|", flush=True)
            for when, mids, seconds in (
                ("started", [], 0),
                ("after a Read of each", range(1), 0),
                ("after 50 Reads of each", range(1, 50), 0),
                (f"{LIFETIME} s later, after a Read of each", range(50, 51), LIFETIME),
            ):
                time.sleep(seconds)
                read(peer, mids)
                memory = fleet.resident(process)
                each = f"{(memory - start) / DEVICES:,.0f} bytes"
                print(f"| {when} | {memory / 1e6:.1f} MB | {each} |", flush=True)
        finally:
            process.kill()
            process.wait()


if __name__ == "__main__":
    main()
