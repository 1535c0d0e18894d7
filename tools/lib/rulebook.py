"""The rules of rules/*.toml, and what carries the id of each: its cases, its wrong bodies and its heading.

For tools/dev/write-rules, tools/rule and tools/check/check-docs. A file of rules has lines `name = "text"`, `name = ["text", ..]`
and `[[rule]]`, one each, which is as much of TOML as is read here.
"""
import json
import pathlib
import re

from edits import all_wrong_bodies, function_at, read

ROOT = pathlib.Path(__file__).resolve().parents[2]

# Files of cases: what they are called, and where they are, in one file or in those of a folder. A case carries ids in
# brackets, at the end of its title (a line `case ..` of a file that `lwbench test` plays) or of a comment.
SHEETS = {
    "device": "cases/device",
    "files": "cases/files",
    "conformance": "examples/conformance",
    "codec": "crates/cases_codec/stdin",
    "commands": "cases/commands",
    "live": "crates/cases_live/stdin",
    "memory": "crates/cases_memory/stdin",
}
# Those that `lwbench test` plays.
PLAYED = ("device", "files", "conformance")
MARK = re.compile(r" ?\[([a-z0-9]+(?:-[a-z0-9]+)+(?: [a-z0-9]+(?:-[a-z0-9]+)+)*)\]$")
# A program that uses threads prints a line for each thing that it tries; a rule names the line in `shown_by`.
USES = {"lock": "crates/ticket_lock_uses/stdout", "workers": "crates/fleet_workers_uses/stdout"}

NAMES = {"id", "sentence", "standard", "page", "definition", "code"}
MORE = {"number", "also", "shown_by", "not_shown", "no_case", "no_wrong_body"}


class Rule:
    """A rule, the file and the line where it is stated, and what was found to carry its id."""

    def __init__(self, file, line):
        self.file, self.line = file, line
        self.id = self.sentence = self.standard = self.page = self.definition = self.code = ""
        self.number, self.also = 0, ""
        self.shown_by, self.not_shown, self.no_case, self.no_wrong_body = [], "", "", ""
        self.cases, self.wrong_bodies = [], []

    def said(self):
        """Its sentence, after its number in the order of the rules, if it has one."""
        return f"Rule {self.number}: {self.sentence}" if self.number else self.sentence

    def heading(self):
        """The page and the heading that carry its id."""
        page, _, anchor = self.page.partition("#")
        return ROOT / "docs" / page, anchor


class Subject:
    """The rules of a file."""

    def __init__(self, file):
        self.file, self.title, self.order, self.also, self.rules = file, "", 0, "", []


class Place:
    """A line of a file, and what it says."""

    def __init__(self, sheet, file, line, text):
        self.sheet, self.file, self.line, self.text = sheet, file, line, text

    def __str__(self):
        return f"{self.file}:{self.line}"


def inside(file):
    return str(file.relative_to(ROOT))


def read_subject(file, faults):
    subject = Subject(file)
    rule = None
    for number, line in enumerate(read(file).splitlines(), 1):
        name, _, value = (it.strip() for it in line.partition("="))
        if not line.strip() or line.startswith("#"):
            continue
        if line == "[[rule]]":
            rule = Rule(inside(file), number)
            subject.rules.append(rule)
            continue
        try:
            value = json.loads(value)
        except ValueError:
            faults.append((inside(file), number, "neither `name = value` nor `[[rule]]`"))
            continue
        if rule is None and name in ("title", "order", "also"):
            setattr(subject, name, value)
        elif rule is not None and name in NAMES | MORE:
            setattr(rule, name, value)
        else:
            faults.append((inside(file), number, f"no such name: {name}"))
    return subject


def read_rules(faults):
    """All subjects with their rules, in their order, and what carries the ids of these."""
    subjects = [read_subject(file, faults) for file in sorted((ROOT / "rules").glob("*.toml"))]
    subjects.sort(key=lambda it: (it.order, it.file))
    by_id = {}
    for rule in (rule for subject in subjects for rule in subject.rules):
        if rule.id in by_id:
            faults.append((rule.file, rule.line, f"another rule has the id {rule.id}"))
        by_id[rule.id] = rule
    for sheet, at in SHEETS.items():
        for place, ids in (it for file in files_at(at) for it in marks(sheet, file)):
            for name in ids:
                if name in by_id:
                    by_id[name].cases.append(place)
                else:
                    faults.append((place.file, place.line, f"no rule {name}"))
    for rule in by_id.values():
        for words in rule.shown_by:
            place = shown(words)
            if place:
                rule.cases.append(place)
            else:
                faults.append((rule.file, rule.line, f"no line {words}"))
    for body in all_wrong_bodies():
        for line, name in body.rules:
            if name in by_id:
                by_id[name].wrong_bodies.append(body)
            else:
                faults.append((inside(body.file), line, f"no rule {name}"))
    return subjects


def files_at(at):
    """The file at a path, or the files of cases in the folder there."""
    return [inside(it) for it in sorted((ROOT / at).glob("*.txt"))] if (ROOT / at).is_dir() else [at]


def marks(sheet, file):
    """The lines of a file of cases that carry ids: the place, and the ids. What a comment says may begin above it."""
    lines = read(ROOT / file).splitlines()
    title = ""
    for number, line in enumerate(lines):
        is_title = line.startswith("case ") and sheet in PLAYED
        if is_title:
            title = MARK.sub("", line[len("case ") :])
        found = MARK.search(line) if is_title or line.startswith("#") else None
        if not found:
            continue
        text = title
        if not is_title:
            first = number
            while first and lines[first - 1].startswith("# ") and not MARK.search(lines[first - 1]):
                first -= 1
            text = " ".join(MARK.sub("", it).lstrip("# ") for it in lines[first : number + 1]).strip()
            below = next((it for it in lines[number + 1 :] if it and not it.startswith("#")), "")
            if sheet in PLAYED and title:
                text = f"{title}: {text or below}"
            elif sheet == "memory" and text:
                text = f"{text} ({below})"
            text = text or below
        yield Place(sheet, file, number + 1, text), found.group(1).split()


def shown(words):
    """The line of a program that uses threads, named `lock: LINE` or `workers: LINE`."""
    sheet, _, line = words.partition(": ")
    if sheet not in USES:
        return None
    lines = read(ROOT / USES[sheet]).splitlines()
    found = [number for number, it in enumerate(lines, 1) if it == f"{line}: yes"]
    return Place(sheet, USES[sheet], found[0], line) if found else None


def changed(body):
    """What a wrong body changes: functions, and constants outside of them, as `crate/module::name`."""
    found = set()
    try:
        places = body.apply(ROOT / "crates" / body.crate, {})
    except (OSError, ValueError):
        # (tools/check/check-docs says why)
        return found
    for path, text, at in places:
        place = function_at(path, text, at)
        heads = (re.match(r"(?:pub(?:\(\w+\))? )?(?:const|static) (\w+)", it) for it in outside(text, at))
        const = next((it for it in heads if it), None)
        name = place[2] if place else const and const.group(1)
        if name:
            module = path[len("src/") : -len(".rt")].replace("/", "::")
            found.add(f"{body.crate}/{module}::{name}")
    return found


def outside(text, at):
    """The line, and those above it up to the first that is not indented."""
    lines = text.split("\n")
    for number in range(at, -1, -1):
        yield lines[number]
        if not lines[number].startswith(" "):
            return


def line_of(file, pattern):
    """The number of the first line of a file where a pattern begins, or 0."""
    if not file.is_file():
        return 0
    text = read(file)
    found = re.search(pattern, text, re.M)
    return text.count("\n", 0, found.start()) + 1 if found else 0


def definition_place(rule):
    """The file and the line of its definition, `crate/File.name`; the line is 0 where it is not there."""
    crate, _, rest = rule.definition.partition("/")
    module, _, name = rest.rpartition(".")
    file = ROOT / "crates" / crate / "specs" / f"{module}.antt"
    word = r"(?:(?:abbrev|data|pub|record|unfoldable) )*" + re.escape(name) + r"(?: [:({]| :|$)"
    return file, line_of(file, r"^ *" + word)


def code_place(rule):
    """The file and the line of its code, `crate/module::function`; the line is 0 where it is not there."""
    crate, _, rest = rule.code.partition("/")
    *modules, name = rest.split("::")
    file = ROOT / "crates" / crate / "src" / f"{'/'.join(modules)}.rt"
    return file, line_of(file, rf"^ *(?:pub(?:\(\w+\))? )?(?:(?:const |unsafe )*fn|const|static) {re.escape(name)}\b")


def anchor_of(heading):
    """A heading as links name it."""
    return re.sub(r"[^\w\- ]", "", heading.lower()).replace(" ", "-")


def heading_place(rule):
    """The page of a rule, and the line of its heading; the line is 0 where it is not there."""
    page, anchor = rule.heading()
    if page.is_file():
        for number, line in enumerate(read(page).splitlines(), 1):
            found = re.match(r"#+ (.*)$", line)
            if found and anchor_of(found.group(1)) == anchor:
                return page, number
    return page, 0


def edits_code(rule):
    """The wrong bodies of a rule that change the function that it names."""
    return [it for it in rule.wrong_bodies if rule.code in changed(it)]


def rule_faults(rule):
    """What a rule lacks."""
    if not re.fullmatch(r"[a-z0-9]+(-[a-z0-9]+)+", rule.id):
        yield f"not an id: {rule.id}"
    for name in sorted(NAMES):
        if not getattr(rule, name):
            yield f"{rule.id} has no {name}"
    if not rule.sentence.endswith("."):
        yield f"{rule.id} is not a sentence"
    if not heading_place(rule)[1]:
        yield f"{rule.id}: no heading {rule.page}"
    if not definition_place(rule)[1]:
        yield f"{rule.id}: no definition {rule.definition}"
    if not code_place(rule)[1]:
        yield f"{rule.id}: no function {rule.code}"
    if bool(rule.cases) == bool(rule.no_case):
        yield f"{rule.id} has " + ("a case, and a reason to have none" if rule.cases else "no case, and no reason")
    if bool(edits_code(rule)) == bool(rule.no_wrong_body):
        some = "a wrong body of its function, and a reason to have none"
        yield f"{rule.id} has " + (some if rule.no_wrong_body else f"no wrong body of {rule.code}, and no reason")
