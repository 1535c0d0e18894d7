"""The wrong bodies of crates, as their files state them (docs/inside/wrong-bodies.md).

For tools/dev/try-wrong-bodies, tools/lib/rulebook.py and tools/check/check-docs. A section of the file
crates/NAME/wrong-bodies.edits begins with a line `== WHAT-GOES-WRONG`, and only comments stand before the first.
A file crates/NAME/must-fail/WHAT-GOES-WRONG.edit is read as a section without that line.
"""
import pathlib
import re

ROOT = pathlib.Path(__file__).resolve().parents[2]
HEAD = "== "
RULE = "# rule: "
NAME = re.compile(r"[a-z0-9]+(-[a-z0-9]+)*")

# In a .rt file: a function, and the head of an impl (its trait and its type) or of a trait.
FUNCTION = re.compile(r"( *)(?:pub(?:\(\w+\))? )?(?:const )?(?:unsafe )?fn (\w+)")
OWNER = re.compile(r"(?:pub(?:\(\w+\))? )?(?:impl|trait)\b(?:<.*?>)? (?:[\w:]*?(\w+)(?:<.*>)? for )?[\w:]*?(\w+)\b")


def read(file):
    return pathlib.Path(file).read_text(encoding="utf-8")


class WrongBody:
    """A wrong body: where it begins, its name, the ids of rules that it carries, each after its line, and its pairs,
    each with the path of a file of the crate, the old text and the new one. `fault` says why it cannot be read."""

    def __init__(self, file, line, name, lines, fault=""):
        self.file, self.line, self.name = file, line, name
        self.crate = file.relative_to(ROOT).parts[1]
        self.rules, self.pairs = [], []
        self.fault = fault or self.read(lines)

    def __str__(self):
        return f"{self.file.relative_to(ROOT)}:{self.line}: {self.name}"

    def read(self, lines):
        """Reads its lines, which have their numbers, and returns the first fault."""
        if not NAME.fullmatch(self.name):
            return "its name is not made of small letters and digits, with - between words"
        path = old = ""
        for number, line in lines:
            if line.startswith(RULE):
                self.rules += [(number, it) for it in line[len(RULE) :].split()]
            elif line.startswith("file: "):
                path = line[len("file: ") :].strip()
            elif line.startswith("old: ") and not old:
                old = line[len("old: ") :]
            elif line.startswith("new:") and path and old:
                self.pairs.append((path, old, line[len("new:") :].removeprefix(" ")))
                old = ""
            elif line and not line.startswith("#"):
                return f"line {number} is no comment, and no 'file:', 'old:' or 'new:' line in its place"
        return "" if self.pairs and not old else "an 'old:' or a 'new:' line is missing"

    def apply(self, folder, texts):
        """Makes the change in texts, which has the edited texts of the crate's folder by their path. Returns where: for
        each pair the path, the text before, and the line in it. A ValueError or an OSError says why it cannot."""
        if self.fault:
            raise ValueError(self.fault)
        edited, places = dict(texts), []
        for path, old, new in self.pairs:
            text = edited[path] if path in edited else read(f"{folder}/{path}")
            if text.count(old) != 1:
                raise ValueError(f"an 'old:' text is in {path} {text.count(old)} times, and not once")
            places.append((path, text, text.count("\n", 0, text.index(old))))
            edited[path] = text.replace(old, new)
        texts.update(edited)
        return places


def wrong_bodies(crate):
    """The wrong bodies of a crate. Text before the first section, which is a fault, is returned as one too."""
    found, sections = [], []
    file = ROOT / "crates" / crate / "wrong-bodies.edits"
    for number, line in enumerate(read(file).split("\n") if file.is_file() else (), 1):
        if line.startswith(HEAD):
            sections.append((file, number, line[len(HEAD) :], []))
        elif sections:
            sections[-1][3].append((number, line))
        elif line and not line.startswith("#"):
            found.append(WrongBody(file, number, line, [], "it stands before the first section, and is no comment"))
    for file in sorted((ROOT / "crates" / crate / "must-fail").glob("*.edit")):
        sections.append((file, 1, file.stem, [*enumerate(read(file).split("\n"), 1)]))
    names = [name for _, _, name, _ in sections]
    for it in sections:
        found.append(WrongBody(*it, "two wrong bodies of the crate have this name" if names.count(it[2]) > 1 else ""))
    return found


def all_wrong_bodies():
    """The wrong bodies of all crates."""
    return [it for crate in sorted((ROOT / "crates").iterdir()) for it in wrong_bodies(crate.name)]


def function_at(path, text, at):
    """Returns the module, the impl's type and trait, and the name of the function whose body has the line, or None.

    rt fmt has set the text: a body is closed in the column of its fn, and so is it opened where clauses precede it."""
    lines = text.split("\n")
    for first in range(at, -1, -1):
        found = FUNCTION.match(lines[first])
        if not found:
            continue
        indent, name = found.groups()
        opens = re.compile(indent + r"(\S.*)?\{$")
        body = next((i for i in range(first, at + 1) if opens.match(lines[i])), None)
        if body is not None and f"{indent}}}" not in lines[body:at]:
            heads = (OWNER.match(it) for it in reversed(lines[:first]))
            head = next((it for it in heads if it), None) if indent else None
            module = path[len("src/") : -len(".rt")].replace("/", "::")
            return module, head and (head[2], head[1] or ""), name
    return None
