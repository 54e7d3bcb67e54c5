"""Reads what the sources say: calls, their clauses and types (src/**/*.rt), and definitions (specs/**/*.antt)."""

import re
from dataclasses import dataclass, field
from pathlib import Path

ROOT = Path(__file__).resolve().parent.parent
CRATES = ROOT / "crates"


def crate_order():
    """Returns each crate of the program and its tests, as `crates.txt` lists them."""
    lines = (ROOT / "crates.txt").read_text().splitlines()
    return [line.split(":")[0] for line in lines if line and not line.startswith(("#", " "))]


@dataclass
class Clause:
    """One clause of a call: `requires` or `ensures`, its name if it has one, its comment, and its lines."""

    kind: str
    name: str
    comment: str
    text: str


@dataclass
class Call:
    """A function or a trait's method with what stands above it."""

    crate: str
    path: Path
    owner: str
    name: str
    comment: str
    signature: str
    is_public: bool
    clauses: list = field(default_factory=list)

    def title(self):
        return f"{self.owner}::{self.name}" if self.owner else self.name


OWNER = re.compile(r"^(?:pub )?(impl|trait)\b(?:<.*?>)? *(?:\w+(?:<.*?>)? for )?&?(\w+)")
FUNCTION = re.compile(r"^ *(pub(?:\([a-z ]+\))? )?(?:const )?(?:unsafe )?fn (\w+)")
CLAUSE = re.compile(r"^ *(ensures|requires)\s+(\w*)\s*\{")


def depth_of(text):
    """Returns by how much a text opens more braces than it closes, past those in its literals."""
    text = re.sub(r'"(?:[^"\\]|\\.)*"', "", text)
    return text.count("{") - text.count("}")


def clause_at(lines, at):
    """Returns the lines of a clause that begins here: up to where its braces are even."""
    depth, end = 0, at
    while True:
        depth += depth_of(lines[end])
        end += 1
        if depth <= 0 or end == len(lines):
            return lines[at:end]


def comment_of(lines, marker):
    return " ".join(line.strip().removeprefix(marker).strip() for line in lines)


def lines_above(lines, at, marker):
    """Returns the comment that stands directly above a line, past attributes."""
    start = at
    while start and (lines[start - 1].strip() == marker or lines[start - 1].strip().startswith((marker + " ", "#["))):
        start -= 1
    return [line for line in lines[start:at] if line.strip().startswith(marker + " ")]


def clauses_after(lines, at):
    """Returns the clauses of the function that begins here; they end where its body begins, or at the `;` of a trait's method."""
    clauses = []
    comment = []
    at += 1
    while at < len(lines):
        line = lines[at].strip()
        found = CLAUSE.match(lines[at])
        if found:
            text = clause_at(lines, at)
            clauses.append(Clause(found[1], found[2], comment_of(comment, "//"), "\n".join(text)))
            at += len(text)
            if text[-1].rstrip().endswith(";"):
                return clauses
            continue
        if line.startswith(("{", "}", "fn ", "pub fn ", "///")):
            return clauses
        comment = comment + [line] if line.startswith("//") else []
        at += 1
    return clauses


def calls_of_file(crate, path):
    """Returns each function of a file, by whose `impl` or `trait` it is."""
    lines = path.read_text().splitlines()
    owner, in_trait, calls = "", False, []
    for at, line in enumerate(lines):
        found = OWNER.match(line)
        if found:
            owner, in_trait = found[2], found[1] == "trait"
        elif line.startswith("}"):
            owner, in_trait = "", False
        found = FUNCTION.match(line)
        if found:
            comment = comment_of(lines_above(lines, at, "///"), "///")
            is_public = bool(found[1]) or in_trait
            ends = line.rstrip().endswith((";", "}"))
            clauses = [] if ends else clauses_after(lines, at)
            calls.append(Call(crate, path, owner, found[2], comment, line.strip(), is_public, clauses))
    return calls


def calls_of(crate):
    """Returns each function of a crate."""
    return [call for path in sorted((CRATES / crate / "src").rglob("*.rt")) for call in calls_of_file(crate, path)]


def exported_names(crate):
    """Returns the names that a crate's root file shows: those of its `pub use` lines, and all of its public modules."""
    root = (CRATES / crate / "src" / "lib.rt")
    text = root.read_text() if root.exists() else ""
    names = set(re.findall(r"^pub mod (\w+)", text, re.M))
    for used in re.findall(r"^pub use ([^;]*);", text, re.M):
        names |= set(re.findall(r"\w+", used.split("::")[-1]))
    return names


def is_exported(call, names):
    """Returns whether a call is a part of its crate's public surface."""
    module = call.path.stem
    shown = (call.owner or call.name) in names or module in names or module == "lib"
    return call.is_public and shown


@dataclass
class Definition:
    """A definition of a `specs` file: its names, the sentences above it, and its lines."""

    module: str
    name: str
    sentences: list
    lines: list
    names: set


@dataclass
class Module:
    """A `specs` file: what it says of itself, what it imports, and what it defines."""

    path: Path
    name: str
    head: list
    imports: dict
    aliases: dict
    definitions: list


KEYWORDS = ("abbrev", "unfoldable", "pub", "record", "data")
SIGNATURE = re.compile(r"^(?:(?:abbrev|unfoldable|pub|record|data) +)+([^\s(){}]+) *[:({]")
PLAIN = re.compile(r"^([^\s(){}]+) : ")
USE = re.compile(r"^(?:pub )?(?:ghost )?use ([^{\s;]+?)(?:\.\{(.*?)\}| as (\w+))? *;?$")


def module_name(path):
    """Returns a file's module: `iss_model.specs.rules.Histories` for crates/iss_model/specs/rules/Histories.antt."""
    return ".".join(path.relative_to(CRATES).with_suffix("").parts)


def add_import(imports, aliases, line):
    """Notes what a `use` line imports: each name with its module, or a name for a module."""
    target, names, alias = USE.match(line.strip()).groups()
    target = target.removeprefix("Rattle.")
    if alias:
        aliases[alias] = target
    elif names:
        for name in names.split(","):
            imports[name.strip()] = target
    else:
        imports[target.rsplit(".", 1)[1]] = target.rsplit(".", 1)[0]


def signature_name(line):
    """Returns the name that a line begins to define, if it does."""
    if line.startswith("infix"):
        return None
    first = line.split(" ", 1)[0]
    found = SIGNATURE.match(line) if first in KEYWORDS else PLAIN.match(line)
    return found[1] if found else None


def constructors(lines):
    """Returns the names of a `data` definition's cases."""
    cases = set()
    for line in lines[1:]:
        found = re.match(r"^ +((?:[\w◌]+ )+): ", line)
        cases |= set(found[1].split()) if found else set()
    return cases


def split_definitions(module, lines):
    """Returns the definitions of a file's lines, each with the comment above it."""
    definitions, above = [], []
    for line in lines:
        name = signature_name(line) if line and not line.startswith((" ", "--")) else None
        if name:
            definitions.append(Definition(module, name, above, [line], {name}))
            above = []
        elif line.startswith(("infix", "--")):
            above.append(line)
        elif not line:
            above = []
        elif definitions:
            definitions[-1].lines += above + [line]
            above = []
    return [with_cases(definition) for definition in definitions]


def with_cases(definition):
    """Returns the definition with the names of its cases, where it is a `data` definition."""
    if "data " in definition.lines[0]:
        definition.names |= constructors(definition.lines)
    return definition


def without_blocks(lines):
    """Yields the lines with those of a `module _ (..) where` block moved to the left, each definition under what the block is given."""
    given = None
    for line in lines:
        found = re.match(r"^module _ (.*) where$", line)
        if found:
            given = found[1]
            continue
        if given and line and not line.startswith(" "):
            given = None
        if not given or not line:
            yield line
            continue
        if signature_name(line[2:]) and not line.startswith(("   ", "  --")):
            yield f"-- given {given}"
        yield line[2:]


def read_module(path):
    """Returns what a `specs` file imports and defines."""
    name, imports, aliases, rest, head = module_name(path), {}, {}, [], []
    for line in without_blocks(path.read_text().splitlines()):
        if re.match(r"^(?:pub )?use ", line):
            add_import(imports, aliases, line)
        elif line.startswith("--") and not imports and not aliases and not rest:
            head.append(line)
        elif not re.match(r"^(?:pub )?mod ", line):
            rest.append(line)
    return Module(path, name, head, imports, aliases, split_definitions(name, rest))


def read_modules():
    """Returns all modules of definitions by name."""
    paths = [path for path in CRATES.rglob("*.antt") if "specs" in path.parts and "out" not in path.parts]
    return {module.name: module for module in map(read_module, sorted(paths))}
