"""Goes from the text of a clause to all that it cites: definitions, and the program's types."""

import re
from dataclasses import dataclass, field

from sources import CRATES, USE, add_import, crate_order, depth_of, lines_above, read_modules

TOKEN = re.compile(r"[^\W\d][\w']*(?:\.[\w']+)*")
TYPE = re.compile(r"^(?:pub(?:\(crate\))? )?(?:struct|enum|trait|const|type) (\w+)")


@dataclass
class Type:
    """A type, trait or constant of the program, with what stands above it, its model if it has one, and what it cites."""

    crate: str
    path: object
    name: str
    sentences: list
    lines: list


@dataclass
class Pages:
    """What is cited so far, in the order in which it was found."""

    definitions: dict = field(default_factory=dict)
    types: dict = field(default_factory=dict)
    kit: dict = field(default_factory=dict)
    missing: list = field(default_factory=list)
    cited: dict = field(default_factory=dict)

    def modules_in_order(self):
        """Returns the modules that have a cited definition, each after those that it cites."""
        order = []

        def visit(name):
            if name in waiting:
                waiting.remove(name)
                for other in self.cited.get(name, ()):
                    visit(other)
                order.append(name)

        waiting = list(dict.fromkeys(module for module, _ in self.definitions))
        for name in list(waiting):
            visit(name)
        return order


def block_at(lines, at):
    """Returns the lines of an item that begins here: to its `;`, or to where its braces are even."""
    depth = 0
    for end in range(at, len(lines)):
        depth += depth_of(lines[end])
        if depth == 0 and lines[end].rstrip().endswith((";", "}")):
            return lines[at : end + 1]
    return lines[at:]


def model_of(lines, name):
    """Returns the `impl Model` block of a type, if the file has one."""
    head = re.compile(rf"^impl(?:<.*?>)? Model for {name}\b")
    for at, line in enumerate(lines):
        if head.match(line):
            return ["", *block_at(lines, at)]
    return []


def types_of_file(crate, path):
    """Returns the types of a file by name."""
    lines = path.read_text().splitlines()
    types = {}
    for at, line in enumerate(lines):
        found = TYPE.match(line)
        if found:
            sentences = lines_above(lines, at, "///")
            types[found[1]] = Type(crate, path, found[1], sentences, block_at(lines, at) + model_of(lines, found[1]))
    return types


class Sources:
    """All definitions, and the types of the program by crate and module."""

    def __init__(self):
        self.modules = read_modules()
        self.named = {
            name: {word: definition for definition in module.definitions for word in definition.names}
            for name, module in self.modules.items()
        }
        self.types = {}
        for crate in crate_order():
            for path in sorted((CRATES / crate / "src").rglob("*.rt")):
                module = ".".join(path.relative_to(CRATES / crate / "src").with_suffix("").parts)
                self.types[crate, module] = types_of_file(crate, path)

    def count(self):
        """Returns how many definitions there are."""
        return sum(len(module.definitions) for module in self.modules.values())

    def declared(self, target, name):
        """Returns the type that an imported name of the program's types belongs to."""
        parts = target.split(".")
        crate, rest = parts[0], parts[3:]
        for cut in range(len(rest), 0, -1):
            types = self.types.get((crate, ".".join(rest[:cut])))
            if types is not None:
                return types.get(rest[cut] if len(rest) > cut else name) or types.get(name)
        return None

    def type_named(self, crate, path, name):
        """Returns the type that a name of a program's file means: of its own file, of its crate, or of one that it uses."""
        own = {t.name: t for (c, _), types in self.types.items() if c == crate for t in types.values()}
        if name in own:
            return own[name]
        for used in re.findall(r"^(?:pub )?use (iss_\w+)::", path.read_text(), re.M):
            for (c, _), types in self.types.items():
                if c == used and name in types:
                    return types[name]
        return None


def is_ours(target):
    return target.startswith("iss_")


class Walk:
    """Goes from a text to all that it cites."""

    def __init__(self, sources):
        self.sources = sources
        self.pages = Pages()

    def imported(self, where, name, target):
        """Takes up what an imported name stands for."""
        if not is_ours(target):
            self.pages.kit.setdefault(target, set()).add(name)
        elif target in self.sources.modules:
            self.defined(where, target, name)
        else:
            found = self.sources.declared(target, name)
            self.typed(found) if found else self.pages.missing.append((where, target, name))

    def defined(self, where, module, name):
        """Takes up the definition of a name of a module, or what the module passes on."""
        definition = self.sources.named[module].get(name)
        passed_on = self.sources.modules[module].imports.get(name)
        if definition:
            self.pages.cited.setdefault(where, {})[module] = True
            self.take(definition)
        elif passed_on:
            self.imported(where, name, passed_on)
        else:
            self.pages.missing.append((where, module, name))

    def take(self, definition):
        """Takes up a definition and all that it cites."""
        key = definition.module, definition.name
        if key in self.pages.definitions:
            return
        self.pages.definitions[key] = definition
        module = self.sources.modules[definition.module]
        text = "\n".join(line for line in definition.lines if not line.strip().startswith("--"))
        self.follow(definition.module, text, module.imports, module.aliases, self.sources.named[definition.module])

    def typed(self, found):
        """Takes up a type and the types of its parts; a type with a model also what that cites."""
        key = found.crate, str(found.path), found.name
        if key in self.pages.types:
            return
        self.pages.types[key] = found
        imports, aliases = imports_of(found.path.read_text().splitlines())
        code = "\n".join(line for line in found.lines if not line.strip().startswith(("///", "//")))
        self.follow(found.name, code, imports, aliases, {})
        for name in sorted(type_names(code) - set(imports)):
            other = self.sources.type_named(found.crate, found.path, name)
            if other:
                self.typed(other)

    def follow(self, where, text, imports, aliases, own):
        """Takes up each name of a text, by the imports of where it stands; what stands in quotes is no name."""
        text = re.sub(r'"[^"\n]*"', '""', text)
        bound = bound_names(text)
        for word in TOKEN.findall(text):
            first, *rest = word.split(".")
            if first in aliases and rest:
                self.imported(where, rest[0], aliases[first])
            elif first in bound:
                continue
            elif first in own:
                self.take(own[first])
            elif first in imports:
                self.imported(where, first, imports[first])
        for name in [*own, *imports]:
            if "◌" in name and is_used(name, text):
                self.take(own[name]) if name in own else self.imported(where, name, imports[name])


def type_names(code):
    """Returns the names of types in a type's text; the name of an enum's case, which begins its line, is none."""
    return {name for line in code.splitlines() for name in re.findall(r"\b[A-Z]\w+", re.sub(r"^    [A-Z]\w*", "", line))}


def is_used(name, text):
    """Returns whether a text has an operator, as `◌++◌`: all its signs, in their order."""
    signs = [re.escape(sign) for sign in name.split("◌") if sign]
    return re.search(r"(?<!\S)" + r"\b.*?".join(signs) + r"(?!\S)", text, re.S) is not None


def bound_names(text):
    """Returns the names that a text binds itself: of functions, of quantifiers, of steps and of `let`."""
    names = set()
    for group in re.findall(r"λ ([\w' ]+)\.", text) + re.findall(r"[({]([\w' ]+) :", text):
        names |= set(group.split())
    return names | set(re.findall(r"(\w+) ←", text)) | set(re.findall(r"\blet (\w+) =", text))


def imports_of(lines):
    """Returns what the `ghost use` lines of a program's file import."""
    imports, aliases = {}, {}
    for line in lines:
        if line.strip().startswith("ghost use ") and USE.match(line.strip()):
            add_import(imports, aliases, line.strip())
    return imports, aliases
