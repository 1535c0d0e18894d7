#!/usr/bin/env python3
"""Draws bench/*.svg, the pictures of README.md, from the measured figures of bench/figures.json.

    bench/plots.py            writes them
    bench/plots.py --check    writes nothing; status 1 where a picture is not that of its figures

The figures of a measurement have lines that say what was measured, of which program, when and on which machine, which
is the foot of the picture; the names of the columns; and the rows, as the scripts print them, with null where there is
no figure. PICTURES has a function for each picture, which chooses what is drawn. Sizes go by factors, so the axis
across is always logarithmic; plots of one picture whose axes up have the same name have the same scale. A picture whose
figures are not there is not drawn. Python's standard library is all that it needs.
"""
import json
import math
import pathlib
import sys
import textwrap
from dataclasses import dataclass
from html import escape

HERE = pathlib.Path(__file__).resolve().parent
# Pixels: of a picture, of its edges, between its plots, above a plot and below it, and of a letter.
WIDTH, EDGE, GAP, ABOVE, BELOW, LETTER = 860, 16, 26, 46, 42, 7.6
# Of a line at the foot, and how many letters fit there.
FOOT, LETTERS = 15, 130
# How the first, second, .. line of a plot looks: its colour, its dashes and its points.
LOOKS = [
    ("#0b5394", "", "circle"), ("#b45309", "7 4", "square"), ("#2f6f3e", "2 3", "triangle"), ("#4b5563", "12 4", ""),
]
STYLE = """text { font-family: 'DejaVu Sans', Verdana, Helvetica, Arial, sans-serif; font-size: 13px; fill: #1f2933; }
.head { font-size: 16px; font-weight: bold; } .title { font-weight: bold; }
.small { font-size: 12px; } .foot { font-size: 11.5px; fill: #52606d; }
.end { text-anchor: end; } .middle { text-anchor: middle; }
.number { font-size: 11.5px; stroke: white; stroke-width: 3px; paint-order: stroke; }
.grid { stroke: #d5dbe1; } .axis { stroke: #52606d; }"""


@dataclass
class Plot:
    """Curves over sizes: the points of each by its name, and whether their numbers stand beside them."""

    title: str
    across: str
    up: str
    curves: dict
    is_log: bool = False
    has_numbers: bool = False

    @property
    def axis(self):
        return self.up

    @property
    def values(self):
        return [y for points in self.curves.values() for _, y in points]


@dataclass
class List:
    """A bar for each name or, on a logarithmic axis, a dot; with None in place of a number there is none of them."""

    title: str
    across: str
    bars: list
    is_log: bool = False
    has_numbers = False

    @property
    def axis(self):
        return self.across

    @property
    def values(self):
        return [value for _, value, _ in self.bars if value is not None]


class Figure(float):
    """A number, and how a picture spells it: with the digits of the file."""

    def __new__(cls, text):
        figure = super().__new__(cls, text)
        figure.text = f"{int(text):,}" if text.isdigit() else text
        return figure


def curve(rows, across, up):
    return [(it[across], it[up]) for it in rows if None not in (it[across], it[up])]


def where(rows, **wanted):
    return [it for it in rows if all(it[column] == value for column, value in wanted.items())]


CREWS = {"one": 1, "two": 2, "four": 4, "all": 64}


def by_workers(rows, batch, column):
    """The points of the runs with batches of so many steps, by how many workers they have."""
    its = [(it["Run"].partition(" "), it[column]) for it in rows]
    return [(CREWS[run[0]], value) for run, value in its if run[2] == batch]


def workers(rows):
    plots = []
    for steps, devices in (("mixed", 4096), ("mixed", 16384), ("ticks", 4096)):
        its = where(rows, Steps=steps, Devices=devices)
        curves = {f"batch {it}": by_workers(its, it, "Steps/s") for it in ("64", "16", "1")}
        alone = where(its, Run="serial")[0]["Steps/s"]
        curves["serial"] = [(1, alone), (64, alone)]
        curves = {name: [(x, y / 1e6) for x, y in points] for name, points in curves.items()}
        plots.append(Plot(f"{steps}, {devices:,} devices", "workers", "million steps a second", curves))
    return "Runs by workers beside the serial run", 3, 460, plots


def beside(rows):
    """The same runs by other programs, whose rows have the name of the program."""
    plots = []
    for batch in (16, 64):
        names = dict.fromkeys(it["Program"] for it in rows)
        curves = {it: curve(where(rows, Program=it, Batch=batch), "Workers", "Steps/s") for it in names}
        curves = {name: [(x, y / 1e6) for x, y in points] for name, points in curves.items()}
        plots.append(Plot(f"Batches of {batch}", "workers", "million steps a second", curves))
    return "Runs by workers beside plain and tuned Rust", 2, 460, plots


def crews(rows):
    plots = []
    for entries in dict.fromkeys(it["Entries"] for it in rows):
        its = where(rows, Entries=entries)
        columns = {"processes": "Processes", "batch 16": "Batch 16", "wanted": "Wanted", "batch 64": "Batch 64"}
        curves = {name: [(1, 1), *curve(its, "Workers", it)] for name, it in columns.items() if its[0][it] is not None}
        plots.append(Plot(f"Entries {entries}", "workers", "times the steps of one", curves))
    return "More workers, and as many serial runs at once", 3, 430, plots


def steps(rows):
    """Steps of several kinds, of 4,096 devices or of one with 4,096 steps."""
    kinds = {"mixed": (4096, 100), "reads": (1, 4096), "ticks": (4096, 100), "posts": (4096, 100)}
    its = [where(rows, Steps=name, Devices=devices, Each=each)[0] for name, (devices, each) in kinds.items()]

    def bars(column):
        return [(it["Steps"], it[column], it[column].text) for it in its]

    across = "µs of processor time a step"
    return "The serial run, and check of its trace, by kinds of steps", 2, 240, [
        List("Serial run", across, bars("A step µs")), List("Check", across, bars("A step of check µs"))
    ]


def serial(rows):
    by_devices, by_steps = where(rows, Steps="mixed", Each=100), where(rows, Steps="mixed", Devices=1024)
    by_steps = sorted(by_steps, key=lambda it: it["Each"])
    columns = {"check": "A step of check µs", "serial": "A step µs"}

    def plot(title, across, its, column):
        curves = {name: curve(its, column, it) for name, it in columns.items()}
        return Plot(title, across, "µs of processor time a step", curves, has_numbers=True)

    memory = {name: curve(by_devices, "Devices", it) for name, it in (("run", "Run MiB"), ("start", "Start MiB"))}
    return "The serial run, and check of its trace: mixed steps", 3, 430, [
        plot("100 steps a device", "devices", by_devices, "Devices"),
        plot("1,024 devices", "steps a device", by_steps, "Each"),
        Plot("Memory, 100 steps a device", "devices", "MiB of memory", memory, has_numbers=True),
    ]


def waiting(rows):
    plots = [
        Plot(f"Batches of {batch}", "workers", "% of processor time", {
            "looking": by_workers(rows, batch, "Looking %"), "inside": by_workers(rows, batch, "Under the lock %")
        }) for batch in ("16", "64")
    ]
    asleep = {f"batch {batch}": by_workers(rows, batch, "Asleep ms") for batch in ("16", "64")}
    return "What workers spend on the lock", 3, 430, [
        *plots, Plot("Sleep of all threads together", "workers", "ms", asleep)
    ]


def backoff(rows):
    plots = []
    for batch in (16, 1):
        its = where(rows, Batch=batch)
        for before, title in (("", "above all else"), ("Beside proofs: ", "beside proofs")):
            curves = {}
            for name in ("looks", "then sleeps", "snooze"):
                column = f"{before}{name} ms" if before else f"{name.capitalize()} ms"
                curves[name] = curve(its, "Workers", column)
            plots.append(Plot(f"Batches of {batch}, {title}", "workers", "ms by the clock", curves))
    return "Ways to wait for the lock", 2, 560, plots


def debugger(rows):
    bars = [(it["Command"], it["Each ms"], it["Each ms"].text) for it in rows]
    return "Commands of the debugger, over 409,600 entries", 1, 490, [
        List("", "ms of processor time each (logarithmic)", sorted(bars, key=lambda it: it[1]), is_log=True)
    ]


def seconds(rows):
    silent, noisy = ([it for it in rows if (it["Notifications"] == 0) == is_silent] for is_silent in (True, False))
    return "Seconds of devices that are observed", 2, 450, [
        Plot("Nothing is sent: 32 observations", "seconds of a tick", "µs of processor time a tick",
             {"tick": curve(silent, "Seconds", "A tick µs")}, has_numbers=True),
        Plot("Notifications, in ticks of a day", "notifications", "ms of processor time (logarithmic)",
             {"all": curve(noisy, "Notifications", "All ms")}, is_log=True, has_numbers=True),
    ]


def notified(rows):
    bars = [(it["Steps"], it["A step µs"], it["A step µs"].text) for it in rows]
    return "Steps of devices that are observed, beside mixed ones", 1, 220, [
        List("", "µs of processor time a step", bars)
    ]


def live(rows):
    cost, much = "Processor time of the device for each µs", "A second"
    return "One device over UDP", 2, 430, [
        Plot("What the device spends", "requests", "µs of processor time a request",
             {"live": curve(rows, "Requests", cost)}, has_numbers=True),
        Plot("What the client gets", "requests", "requests a second", {"live": curve(rows, "Requests", much)},
             has_numbers=True),
    ]


def fleet(rows):
    def plot(title, up, column):
        curves = {name: curve(where(rows, What=name), "Devices", column) for name in ("fleet", "echo", "live")}
        return Plot(title, "devices", up, curves, has_numbers=True)

    return "A fleet over UDP beside an echo in plain Rust", 2, 460, [
        plot("What the client gets", "requests a second", "Requests a second"),
        plot("What the devices spend", "µs of processor time a request", "Processor time a request µs"),
    ]


def fleet_notified(rows):
    much, cost = "Notifications a second", "Processor time a notification µs"
    return "A fleet whose values change each second", 2, 430, [
        Plot("What the client gets", "devices", "notifications a second (logarithmic)",
             {"fleet": curve(rows, "Devices", much)}, is_log=True, has_numbers=True),
        Plot("What the devices spend", "devices", "µs of processor time a notification",
             {"fleet": curve(rows, "Devices", cost)}, has_numbers=True),
    ]


def fleet_rest(rows):
    return "A fleet that gets nothing", 2, 430, [
        Plot("Until all ports are there", "devices", "ms (logarithmic)",
             {"ready": curve(rows, "Devices", "Ready after ms")}, is_log=True, has_numbers=True),
        Plot("Memory of the process", "devices", "MB (logarithmic)",
             {"memory": curve(rows, "Devices", "Memory of the process MB")}, is_log=True, has_numbers=True),
    ]


def show(rows):
    def bars(column):
        its = [(it["Command"], it[column]) for it in rows]
        return [(name, it, it.text) if isinstance(it, Figure) else (name, None, it) for name, it in its]

    return "What prints a trace of 409,600 entries", 2, 270, [
        List("Processor time", "seconds", bars("Seconds")), List("What it writes", "MB", bars("It writes MB"))
    ]


def growth(rows):
    """What a step or a command costs as what it stands on grows, by the program that was measured."""
    plots = []
    for name in dict.fromkeys(it["What"] for it in rows):
        its = where(rows, What=name)
        programs = dict.fromkeys(it["Program"] for it in its)
        curves = {it: curve(where(its, Program=it), "Size", "Each µs") for it in programs}
        plots.append(Plot(name, its[0]["Of"], "µs each (logarithmic)", curves, is_log=True))
    return "What a step or a command costs, by what it stands on", 3, 220 * -(-len(plots) // 3) + 40, plots


# The function of each picture; its figures have the same name, or that which stands with it.
PICTURES = {
    "workers": workers, "beside": beside, "crews": crews, "serial": serial, "steps": (steps, "serial"),
    "waiting": waiting, "backoff": backoff, "debugger": debugger, "seconds": seconds, "notified": notified,
    "live": live, "fleet": fleet, "fleet-notified": fleet_notified, "fleet-rest": fleet_rest, "show": show,
    "growth": growth,
}


def read():
    """Of each measurement what was measured, when and where, and its rows, each a figure or a text by its column."""
    text = (HERE / "figures.json").read_text(encoding="utf-8")
    found = json.loads(text, parse_int=Figure, parse_float=Figure)
    return {name: (" ".join(it["measured"]), [dict(zip(it["columns"], row)) for row in it["rows"]])
            for name, it in found.items()}


def even_step(top):
    """The distance of the ticks of a scale from 0 up to this number: 1, 2 or 5, or ten, a tenth, .. times that."""
    rough = top / 5
    power = 10 ** math.floor(math.log10(rough))
    return next(it * power for it in (1, 2, 5, 10) if it * power >= rough * 0.99)


def scale(values, is_log, has_numbers):
    """The ticks of an axis that all of these values lie on, with room for the number above the highest."""
    if is_log:
        low, high = math.floor(math.log10(min(values))), math.ceil(math.log10(max(values)))
        return [10.0 ** it for it in range(low, max(high, low + 1) + 1)]
    step = even_step(max(values))
    return [step * it for it in range(math.ceil(max(values) * (1.03 if has_numbers else 1) / step) + 1)]


def fraction(value, ticks, is_log):
    """How far along an axis with these ticks a value lies, from 0 to 1."""
    if is_log:
        value, ticks = math.log(value), [math.log(ticks[0]), math.log(ticks[-1])]
    return (value - ticks[0]) / (ticks[-1] - ticks[0])


def line(kind, x, y, to_x, to_y):
    return f'<line class="{kind}" x1="{x:.1f}" y1="{y:.1f}" x2="{to_x:.1f}" y2="{to_y:.1f}"/>'


def words(kind, x, y, text, more=""):
    return f'<text class="{kind}" x="{x:.1f}" y="{y:.1f}"{more}>{escape(text)}</text>'


def mark(shape, x, y, colour):
    if shape == "circle":
        return f'<circle cx="{x:.1f}" cy="{y:.1f}" r="4" fill="{colour}"/>'
    if shape == "square":
        return f'<rect x="{x - 3.6:.1f}" y="{y - 3.6:.1f}" width="7.2" height="7.2" fill="{colour}"/>'
    return f'<path d="M{x:.1f},{y - 4.8:.1f} l4.8,8.4 h-9.6 z" fill="{colour}"/>'


def spread(heights, least):
    """These heights, moved so that neighbours are at least so far from each other, in their order."""
    order = sorted(range(len(heights)), key=lambda it: heights[it])
    moved = list(heights)
    for _ in range(100):
        for one, next_one in zip(order, order[1:]):
            lack = least - (moved[next_one] - moved[one])
            if lack > 0.01:
                moved[one] -= lack / 2
                moved[next_one] += lack / 2
    return moved


def spelled(value):
    return f"{value:,.10g}"


def numbers(curves, at):
    """The numbers beside points: above the highest of those over one size, and below the lowest."""
    for size in sorted({x for points in curves for x, _ in points}):
        values = sorted(y for points in curves for x, y in points if x == size)
        for value in values[:1] + values[1:][-1:]:
            x, y = at(size, value)
            yield words("number middle", x, y - 9 if value == values[-1] else y + 18, value.text)


def draw_plot(plot, ticks, x, y, width, height):
    """The lines of a picture that show a plot in this place, its axis up with these ticks."""
    names = [*plot.curves]
    left = x + 8 + LETTER * max(len(spelled(it)) for it in ticks)
    sizes = sorted({size for points in plot.curves.values() for size, _ in points})
    ends = [name for name in names if plot.curves[name][-1][0] == sizes[-1]]
    right = x + width - 10 - (LETTER * max(map(len, ends)) if len(names) > 1 else 12)
    low, high = y + height - BELOW, y + ABOVE
    room = 24 if plot.has_numbers else 12

    def at(size, value):
        across = left + room + fraction(size, [sizes[0], sizes[-1]], True) * (right - left - room - 6)
        return across, low - fraction(value, ticks, plot.is_log) * (low - high)

    yield words("title", x, y + 4, plot.title)
    yield words("small", x, y + 24, plot.up)
    for it in ticks:
        up = at(sizes[0], it)[1]
        yield line("grid", left, up, right, up)
        yield words("small end", left - 6, up + 4, spelled(it))
    for it in sizes:
        yield line("axis", at(it, ticks[0])[0], low, at(it, ticks[0])[0], low + 5)
        yield words("small middle", at(it, ticks[0])[0], low + 19, spelled(it))
    yield line("axis", left, low, right, low)
    yield words("small middle", (left + right) / 2, low + 38, f"{plot.across} (logarithmic)")
    for name, (colour, dashes, shape) in zip(names, LOOKS):
        places = [at(*it) for it in plot.curves[name]]
        way = " ".join(f"{across:.1f},{up:.1f}" for across, up in places)
        yield f'<polyline points="{way}" fill="none" stroke="{colour}" stroke-width="2" stroke-dasharray="{dashes}"/>'
        if shape:
            yield from (mark(shape, *it, colour) for it in places)
        if name not in ends:
            yield words("number", places[-1][0] + 7, places[-1][1] - 7, f"{name} {plot.curves[name][-1][1].text}")
    if plot.has_numbers:
        yield from numbers([plot.curves[it] for it in ends], at)
    if len(names) > 1:
        last = [at(*plot.curves[name][-1])[1] for name in ends]
        for name, up in zip(ends, spread(last, 15)):
            colour = LOOKS[names.index(name)][0]
            yield words("", right + 6, up + 4, name, f' style="fill: {colour}"')


def draw_list(plot, ticks, x, y, width, height):
    """The lines of a picture that show a list in this place, its axis across with these ticks."""
    left = x + 12 + LETTER * max(len(name) for name, _, _ in plot.bars)
    right = x + width - 10 - LETTER * max(len(text) for _, _, text in plot.bars)
    low, high = y + height - BELOW, y + (16 if plot.title else -12)

    def at(value):
        return left + fraction(value, ticks, plot.is_log) * (right - left)

    yield words("title", x, y + 4, plot.title)
    for it in ticks:
        yield line("grid", at(it), high, at(it), low)
        yield words("small middle", at(it), low + 17, spelled(it))
    yield line("axis", left, low, right, low)
    yield words("small middle", (left + right) / 2, low + 36, plot.across)
    for place, (name, value, text) in enumerate(plot.bars):
        up = high + 14 + place * (low - high - 26) / max(1, len(plot.bars) - 1)
        yield words("end", left - 8, up + 4, name)
        if value is None:
            yield words("small", left + 8, up + 4, text)
            continue
        colour = LOOKS[0][0]
        if plot.is_log:
            yield line("grid", left, up, at(value), up)
            yield mark("circle", at(value), up, colour)
        else:
            yield f'<rect x="{left:.1f}" y="{up - 7:.1f}" width="{at(value) - left:.1f}" height="14" fill="{colour}"/>'
        yield words("number", at(value) + 8, up + 4, text)


def scales(plots):
    """The ticks of each plot's axis: plots whose axes have one name share them."""
    values = {}
    for it in plots:
        values.setdefault(it.axis, []).extend(it.values)
    return [scale(values[it.axis], it.is_log, it.has_numbers) for it in plots]


def picture(draw, note, rows):
    """The text of a picture."""
    head, count, height, plots = draw(rows)
    foot = textwrap.wrap(note, LETTERS)
    whole = height + 6 + FOOT * len(foot)
    yield f'<svg xmlns="http://www.w3.org/2000/svg" viewBox="0 0 {WIDTH} {whole}" width="{WIDTH}" height="{whole}">'
    yield f"<title>{escape(head)}</title>"
    yield f"<style>{STYLE}</style>"
    yield '<rect width="100%" height="100%" fill="white"/>'
    yield words("head", EDGE, 28, head)
    wide = (WIDTH - 2 * EDGE - GAP * (count - 1)) / count
    high = (height - 52) / -(-len(plots) // count)
    for place, (plot, ticks) in enumerate(zip(plots, scales(plots))):
        x, y = EDGE + place % count * (wide + GAP), 56 + place // count * high
        yield from (draw_plot if isinstance(plot, Plot) else draw_list)(plot, ticks, x, y, wide, high - 14)
    for place, text in enumerate(foot):
        yield words("foot", EDGE, height + 8 + FOOT * place, text)
    yield "</svg>"


def main():
    figures, wanted = read(), {}
    for name, it in PICTURES.items():
        draw, of = it if isinstance(it, tuple) else (it, name)
        if of in figures:
            wanted[HERE / f"{name}.svg"] = "".join(f"{line}\n" for line in picture(draw, *figures[of]))
    if sys.argv[1:] != ["--check"]:
        for path, text in wanted.items():
            path.write_text(text, encoding="utf-8")
        return
    stale = [it.name for it, text in wanted.items() if not it.is_file() or it.read_text(encoding="utf-8") != text]
    unknown = [it.name for it in sorted(HERE.glob("*.svg")) if it not in wanted]
    for name in stale:
        print(f"bench/{name}: not as bench/plots.py draws it now")
    for name in unknown:
        print(f"bench/{name}: bench/plots.py has no picture of this name")
    sys.exit(1 if stale or unknown else 0)


if __name__ == "__main__":
    main()
