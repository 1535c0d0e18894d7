"""What the tools that start `lwbench fleet` have in common."""
import os
import pty
import subprocess
import sys


def words_of(lwbench, *words):
    return subprocess.run([lwbench, *words], stdout=subprocess.PIPE, check=True).stdout.decode()


class Fleet:
    """`lwbench fleet`, once all ports are there: at the first thousand of ports that are free, from this one on and then
    from 10,000 on, since other checks have fleets too. Its standard input stays open until `end`, or until it is closed."""

    def __init__(self, lwbench, scenario, *words, at_terminal=False, first=20_000):
        for self.base in (*range(first, 32_000, 1000), *range(10_000, first, 1000)):
            command = [lwbench, "fleet", scenario, str(self.base), *words]
            ours, theirs = pty.openpty() if at_terminal else os.pipe()
            self.process = subprocess.Popen(
                command, stdin=subprocess.PIPE, stdout=subprocess.PIPE, stderr=theirs)
            os.close(theirs)
            self.errors = os.fdopen(ours, "rb", buffering=0)
            self.ready = self.line()
            if self.ready.startswith("lwbench: ready "):
                return
            if not self.ready.endswith(" is taken\n"):
                print(self.ready, end="")
            self.end()
        sys.exit("no thousand ports are free")

    def line(self):
        """The next line of standard error; nothing at its end, at which a terminal fails to be read."""
        try:
            return self.errors.readline().decode().replace("\r\n", "\n")
        except OSError:
            return ""

    def end(self):
        """What it prints until its end, and its status."""
        out, _ = self.process.communicate(timeout=60)
        return out.decode(), self.process.returncode


class Tried:
    """How many things differ from what is wanted."""

    def __init__(self):
        self.differing = 0

    def add(self, name, found, wanted):
        if found != wanted:
            self.differing += 1
            print(f"{name}: {found!r} came, not {wanted!r}", flush=True)
