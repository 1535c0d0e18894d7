#!/usr/bin/env python3
"""Measures the debugger: `debug` over the trace of a run of 4,096 devices with 100 mixed steps each.

    bench/debugger.py LWBENCH [TIMES]

LWBENCH is the built program, crates/lwbench/out/lwbench. Each row of the table that is printed is a run of `debug` with
the row's commands behind those that come before them, less a run with the latter alone: the least of TIMES rounds (3).
The first row is a run of `check` with the same files, the second one of `debug` without commands.
The script stops if a run does not end with status 0 and the answers that it has to give. runs.py writes the scenario.
"""
import os
import sys
import tempfile

from runs import image, mixed, ms, once, table

DEVICES, EACH = 4096, 100
TOTAL = DEVICES * EACH
LAST = DEVICES - 1

# What a row shows: the commands before it with their answers, and its own, each so many times.
TO_END = [(f"forward {TOTAL}", f"at {TOTAL}", 1)]
TO_MIDDLE = [(f"forward {TOTAL // 2}", f"at {TOTAL // 2}", 1)]
NEAR_END = [(f"forward {TOTAL - 10_000}", f"at {TOTAL - 10_000}", 1)]
ROWS = [
    ("at", [], [("at", "at 0", 10_000)]),
    ("value 0 /3/0/9", [], [("value 0 /3/0/9", "integer 100", 10_000)]),
    ("obs 0", [], [("obs 0", "observations 0", 10_000)]),
    ("out 0", [], [("out 0", "nothing", 10_000)]),
    ("forward 1, from the start", [], [("forward 1", "at {}", 10_000)]),
    ("forward 1, to the end", NEAR_END, [("forward 1", "at {}", 10_000)]),
    ("forward, over all", [], TO_END),
    ("back 1, from the end", TO_END, [("back 1", "at {}", 10_000)]),
    ("back 1, from the middle", TO_MIDDLE, [("back 1", "at {}", 10_000)]),
    ("back, over all", TO_END, [(f"back {TOTAL}", "at 0", 1)]),
    ("resume, to the end", [], [("resume", f"end at {TOTAL}", 1)]),
    ("resume, to a place at the end", [], [(f"break at {TOTAL}", "break 1", 1), ("resume", f"break 1 at {TOTAL}", 1)]),
    ("resume, past a change that never is", [],
     [(f"break changed {LAST} /3/0/0", "break 1", 1), ("resume", f"end at {TOTAL}", 1)]),
    ("resume, past 64 breakpoints", [],
     [("break code {} 84", "break {}", 64), ("resume", f"end at {TOTAL}", 1)]),
]


def said(parts):
    """The lines of these commands, and the answers to them."""
    lines, answers, place = [], [], 0
    for command, answer, count in parts:
        for number in range(1, count + 1):
            if command.startswith(("forward", "back")):
                step = int(command.split()[1])
                place += step if command.startswith("forward") else -step
                answers.append(answer.format(place))
            else:
                answers.append(answer.format(number))
            lines.append(command.format(number))
    return ["".join(f"{it}\n" for it in found) for found in (lines, answers)]


def least(program, files, parts, times):
    """The least processor seconds of `debug` with these commands, and the most MiB."""
    lines, answers = said(parts)
    given = files[0] + ".commands"
    with open(given, "w", encoding="ascii") as out:
        out.write(lines)
    runs = [once([program, "debug", *files], answers, given) for _ in range(times)]
    return min(it[1] for it in runs), max(it[2] for it in runs) / 1024


def main():
    if len(sys.argv) not in (2, 3) or sys.argv[1].startswith("-"):
        sys.exit(__doc__)
    program = os.path.abspath(sys.argv[1])
    times = int(sys.argv[2]) if len(sys.argv) == 3 else 3
    with tempfile.TemporaryDirectory() as folder:
        files = [os.path.join(folder, it) for it in ("image", "trace")]
        with open(files[0], "wb") as out:
            out.write(image([mixed(EACH)] * DEVICES))
        once([program, "run", files[0], "--trace", files[1]], f"done {TOTAL}\n")
        opened, memory = least(program, files, [], times)
        checks = [once([program, "check", *files], "run\n") for _ in range(times)]
        checked, most = min(it[1] for it in checks), max(it[2] for it in checks) / 1024
        rows = [["check", "1", ms(checked), ms(checked), f"{most:.0f}"],
                ["open", "1", ms(opened), ms(opened), f"{memory:.0f}"]]
        for name, before, own in ROWS:
            first, _ = least(program, files, before, times) if before else (opened, 0)
            whole, memory = least(program, files, before + own, times)
            count, taken = own[-1][2], whole - first
            rows.append([name, f"{count:,}", ms(taken), f"{taken / count * 1e3:.4f}", f"{memory:.0f}"])
        table(["Command", "Times", "All ms", "Each ms", "MiB"], rows)


if __name__ == "__main__":
    main()
