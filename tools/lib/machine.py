"""What this machine can carry, and how its toolchain is called, for tools/build and tools/dev/time-gate."""
import os
import pathlib
import re
import shutil
import sys

QUICK_RT = pathlib.Path(__file__).resolve().parents[1] / "dev/quick-rt"

# Bytes: the most memory of one proof, which is that of a program over all libraries.
PROOF = 4.5e9
# The part of the available memory that proofs may fill.
SHARE = 0.85


def available():
    """Bytes that processes can still allocate without swapping, or None where the system does not say."""
    try:
        with open("/proc/meminfo", encoding="ascii") as file:
            lines = dict(line.split(":", 1) for line in file)
        return int(lines["MemAvailable"].split()[0]) * 1024
    except (OSError, KeyError, ValueError):
        return None


def processors():
    """How many processors this process may use."""
    return len(os.sched_getaffinity(0))


def jobs():
    """How many proofs may run at once: one for each processor, as long as there is memory for each; at least one."""
    memory = available()
    return processors() if memory is None else max(1, min(processors(), int(SHARE * memory / PROOF)))


def kit():
    """The folder of the toolchain, or None where there is no `rt`."""
    rt = shutil.which("rt")
    return rt and pathlib.Path(rt).resolve().parents[1]


def kit_id():
    """How the toolchain names itself and its logic, or None where there is none."""
    try:
        return (kit() / "KIT-ID").read_text(encoding="utf-8").strip()
    except (OSError, TypeError):
        return None


def keeps():
    """Whether `rt` keeps the sums of sources for a run, and proofs for later runs: kit 13f does, and those after it."""
    found = re.match(r"rattle-kit-(\d+)([a-z]*)", kit_id() or "")
    return not found or (int(found[1]), found[2]) >= (13, "f")


def rt_ci(*words, is_gate=True):
    """The command that proves all crates. tools/dev/quick-rt goes through crates.txt once where `rt` does so anew for each
    import of a clause, for 100 s before the first proof. The gate is plain `rt`, but on a kit that keeps nothing: there
    its sums would take an hour, and no word is needed to prove all from nothing."""
    if keeps() and is_gate:
        return ["rt", "ci", *words]
    return [sys.executable, QUICK_RT, "ci", *(it for it in words if it != "--anew" or keeps())]
