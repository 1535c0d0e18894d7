"""What tools/where, tools/dev/believed and tools/dev/write-promises read of the crates: the functions with their comments
and clauses, what contracts see of types, and the definitions of specs/ with theirs."""
import pathlib
import re
import sys

ROOT = pathlib.Path(__file__).resolve().parents[2]

# The public functions that users of the bench and of its crates call: of each crate, the functions, and the types all of
# whose public methods are meant.
SURFACE = {
    "coap_codec": "Message Options decode encode header uint",
    "lwm2m_values": "read_tlv write_tlv tlv_fits value_of bytes_of read_text write_text",
    "object_defs": "Catalog",
    "instance_store": "Store",
    "access_control": "rights may_create",
    "notifier": "parse_query Attributes Observations",
    "device_template": "Template",
    "device_machine": "Device",
    "scenario_image": "Scenario load save",
    "scenario_words": "spell",
    "scenario_asm": "assemble disassemble",
    "trace_file": "Entries write_entries read_entries",
    "fleet_core": "Fleet run_serial unfinished check",
    "ticket_lock": "TicketLock Pass Held steps",
    "shared_trace": "Trace Job",
    "fleet_workers": "worker_loop run_fleet",
    "debugger": "Debugger",
    "live_link": "serve Wire Seconds UdpWire",
    "trace_text": "trace_text",
    "trace_json": "selected_lines JsonLines head_line verdict_line fault_line",
    "trace_pcap": "trace_pcap",
    "lwbench": "command",
}

# In a .rt file: the head of an impl or a trait, a function, an import, a clause, and what contracts see.
OWNER = re.compile(
    r"^(pub )?(?:unsafe )?(impl|trait)\b(?:<[^{]*?>)? ((?:[\w:]+(?:<.*?>)? for )?)&?(?:'\w+ )?(?:\w+::)*(\w+)"
)
FUNCTION = re.compile(r"^( *)(?:pub\(\w+\) |(pub ))?(?:const )?(?:unsafe )?fn (\w+)")
IMPORT = re.compile(r"ghost use Rattle\.([\w.]+?)(?:\.\{([^}]*)\}| as (\w+))?;", re.S)
CLAUSE = re.compile(r"\b(?:ensures|requires)\*?\s*\w*\s*\{")
VIEW = re.compile(r"^ *ghost (?:view|Value|invariant|log)\b[^=\n]*= \{", re.M)

# In an .antt file: an import, and the first line of a definition.
USE = re.compile(r"^use Rattle\.([\w.]+?)(?:\.\{([^}]*)\}| as (\w+))?$")
FIRST = re.compile(r"^(?:(?:abbrev|unfoldable|pub|record|data) )+(\S+)")
WORD = re.compile(r"[A-Za-z_][\w'-]*(?:\.[A-Za-z_][\w'-]*)*")


def names_in(text):
    """The words of a text that may be names, and the operators of it."""
    return set(WORD.findall(text)) | set(re.findall(r"[^\w\s(){}\[\],;.]{2,}", text))


def imports(found):
    """What imports bring: a name, and the module and the name there; no name for a whole module."""
    brought = {}
    for module, several, alias in found:
        if several:
            for it in several.split(","):
                name, _, other = it.strip().partition(" as ")
                brought[other or name.strip("◌")] = (module, name.strip("◌"))
        elif alias:
            brought[alias] = (module, None)
        else:
            head, _, name = module.rpartition(".")
            brought[name] = (head, name)
    return brought


class Module:
    """A file of definitions: its imports, and by name each definition's lines, the comment above it, and where it is."""

    def __init__(self, path):
        self.path, self.lines, self.comments, self.at = path, {}, {}, {}
        uses, name, depth, above = [], None, 0, []
        for number, line in enumerate(path.read_text(encoding="utf-8").split("\n"), 1):
            # (what stands in a module without a name is set two columns in)
            depth = min(depth, (len(line) - len(line.lstrip())) // 2) if line.strip() else depth
            line = line[2 * depth :]
            use, first = USE.match(line), FIRST.match(line) or re.match(r"^([^-\s]\S*) :", line)
            if line.startswith("module "):
                depth += 1
            elif use:
                uses.append(use.groups())
            elif first and not (name and first[1].strip("◌") == name):
                name = first[1].strip("◌")
                self.lines[name], self.comments[name], self.at[name] = [line], " ".join(above), number
            elif line.startswith("--"):
                above.append(line.strip("- "))
                continue
            elif name and line.strip() and not line.lstrip().startswith("--"):
                self.lines[name].append(line)
            above = []
        self.brings = imports(uses)


def modules():
    """All files of definitions, by the name that an import gives them."""
    found = {}
    for path in sorted(ROOT.glob("crates/*/specs/**/*.antt")):
        parts = path.relative_to(ROOT / "crates").with_suffix("").parts
        if parts[2:] != ("Lib",):
            found[".".join(parts)] = Module(path)
    return found


def block(text, at):
    """The text from the brace at this place to the one that closes it."""
    depth = 0
    for end in range(at, len(text)):
        depth += {"{": 1, "}": -1}.get(text[end], 0)
        if not depth:
            return text[at : end + 1]
    return text[at:]


def is_even(text):
    """Whether each brace is closed."""
    return text.count("{") == text.count("}")


class Function:
    """A function: whose it is, its line, whether others can call it, its comment, and its head: all before its body."""

    def __init__(self, lines, at, owner):
        indent, is_pub, self.name = FUNCTION.match(lines[at]).groups()
        self.line = at + 1
        is_open, kind, of_trait, self.owner = owner if indent and owner else (None, None, "", None)
        self.of_trait = of_trait[: -len(" for ")]
        self.is_public = bool(is_pub or of_trait or kind == "trait" and is_open or self.name == "main")
        first, comment = at, []
        while lines[first - 1].lstrip().startswith(("//", "#[")) and not lines[first - 1].lstrip().startswith("//!"):
            first -= 1
            comment.insert(0, lines[first].strip())
        self.comment = "\n".join(it[3:].strip() for it in comment if it.startswith("///"))
        head, text = [], ""
        for line in lines[at:]:
            if re.fullmatch(r"\s*\{\s*\}?\s*", line):
                break
            head.append(line[len(indent) :])
            text = "\n".join(head)
            has_clause = CLAUSE.search(text)
            if not has_clause and line.endswith(("{", "{}", ";")) or line.endswith("};") and is_even(text):
                break
        self.head = re.sub(r"\s*(?<!\}) \{\}?$|;$", "", text)
        self.clauses = [block(self.head, found.end() - 1) for found in CLAUSE.finditer(self.head)]


class Source:
    """A .rt file: its functions, what contracts see of its types, and its imports."""

    def __init__(self, path):
        text = path.read_text(encoding="utf-8")
        lines = text.split("\n")
        owner, self.path, self.functions, self.owners = None, path, [], []
        for at, line in enumerate(lines):
            head = OWNER.match(line)
            if head:
                owner = head.groups()
            elif line.startswith("}"):
                owner = None
            if line.startswith("#[cfg(test)]"):
                break
            if FUNCTION.match(line):
                self.functions.append(Function(lines, at, owner))
            self.owners.append(owner)
        self.about = "\n".join(it[3:].strip() for it in lines if it.startswith("//!"))
        self.views = [
            (self.owners[min(text.count("\n", 0, found.start()), len(self.owners) - 1)], found.group().split("=")[0],
             block(text, found.end() - 1)) for found in VIEW.finditer(text)
        ]
        self.brings = imports(IMPORT.findall(text))


def sources(crate):
    return [Source(path) for path in sorted((ROOT / "crates" / crate / "src").rglob("*.rt"))]


def named(crate, found):
    """The functions of a crate's files that the surface names."""
    wanted = set(SURFACE.get(crate, "").split())
    return [(it, file) for file in found for it in file.functions
            if it.is_public and (it.owner or it.name) in wanted]


def surface(crates):
    """The clauses of the surface of these crates: the text of each and the imports of its file."""
    found = []
    for crate in crates:
        hit = named(crate, sources(crate))
        lacking = set(SURFACE[crate].split()) - {it.owner or it.name for it, _ in hit}
        if lacking:
            sys.exit(f"{crate} has no public {', '.join(sorted(lacking))}")
        found += [(clause, file.brings) for it, file in hit for clause in it.clauses]
    return found


def reached(texts, every):
    """How many lines each definition has that these texts reach, by its module and its name."""
    lines, crates, waiting = {}, set(), []

    def follow(text, brings, module=None):
        for word in names_in(text):
            head, _, rest = word.partition(".")
            if head in brings:
                there, name = brings[head]
                waiting.append((there, name or rest))
            elif module and head in every[module].lines:
                waiting.append((module, head))

    for text, brings in texts:
        follow(text, brings)
    while waiting:
        module, name = waiting.pop()
        name = name.strip("◌")
        crate = module.split(".")[0]
        if crate not in crates and (ROOT / "crates" / crate).is_dir():
            crates.add(crate)
            for file in sources(crate):
                for number, (_, _, view) in enumerate(file.views, 1):
                    lines[f"{crate}.specs.{file.path.stem}.rt", f"view {number}"] = len(
                        [it for it in view.split("\n") if it.strip()]
                    )
                    follow(view, file.brings)
        if module in every and name in every[module].lines and (module, name) not in lines:
            lines[module, name] = len(every[module].lines[name])
            follow("\n".join(every[module].lines[name]), every[module].brings, module)
    return lines
