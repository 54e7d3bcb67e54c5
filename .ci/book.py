#!/usr/bin/env python3
"""Writes the auditor's book of a clause: all definitions that it cites, directly or not, as a page of Markdown in build/book.

`book.py CLAUSE` takes a clause of `run`, `book.py CLAUSE.FIELD` a field of its record, `book.py CALL.CLAUSE` a clause of any public call, and
`book.py CALL` all clauses of another call.
A word that may be either is a field. Without a word all clauses of `run` are taken.
"""

import re
import sys
from textwrap import dedent

from cited import Sources, Walk, imports_of
from sources import ROOT, calls_of, crate_order, exported_names, is_exported, lines_above

MEMBER = re.compile(r"\b([A-Z])\.(\w+)")


def ghost_members(sources, call, text):
    """Returns the members of traits that a clause names by a type's letter, as `E.told`, with their types."""
    bounds = dict(re.findall(r"\b([A-Z]): (\w+)", call.signature))
    members = []
    for letter, name in sorted(set(MEMBER.findall(text))):
        trait = sources.type_named(call.crate, call.path, bounds.get(letter, ""))
        for at, line in enumerate(trait.lines if trait else []):
            if re.match(rf"\s*ghost {name}:", line):
                members.append((trait, lines_above(trait.lines, at, "///"), line.strip()))
    return members


def prose(lines, marker):
    return " ".join(line.strip().removeprefix(marker).strip() for line in lines)


def code(lines):
    while lines and not lines[-1].strip():
        lines = lines[:-1]
    return ["```", *lines, "```", ""]


def type_part(pages):
    """Returns the part of the page that has the program's types."""
    out = ["## The program's types", ""] if pages.types else []
    for found in pages.types.values():
        out += [f"`{found.path.relative_to(ROOT)}`: {prose(found.sentences, '///')}", "", *code(found.lines)]
    return out


def anchor(heading):
    """Returns the name by which a page of Markdown links to a heading."""
    return re.sub(r"[^\w -]", "", heading).replace(" ", "-").lower()


def contents_part(sources, pages):
    """Returns how the page is read, and its modules."""
    if not pages.definitions:
        return []
    out = [
        "The program's types come first, and then the definitions. Each module stands after those that it cites, so what the clause "
        "itself cites comes last. Whoever reads from the promise down begins at the end.",
        "",
    ]
    for name in pages.modules_in_order():
        path = sources.modules[name].path.relative_to(ROOT)
        count = sum(module == name for module, _ in pages.definitions)
        out.append(f"- [{path}](#{anchor(str(path))}): {count}")
    return out + [""]


def names_meant(module, pages):
    """Returns a line for each imported name that stands on the page more than once: which one the module means."""
    homes = {}
    for home, name in pages.definitions:
        homes.setdefault(name, []).append(home)
    own = {name for home, name in pages.definitions if home == module.name}
    return [
        f"Here `{name}` is that of `{target}`."
        for name, target in module.imports.items()
        if len(homes.get(name, [])) > 1 and target in homes[name] and name not in own
    ]


def definition_part(sources, pages):
    """Returns the part of the page that has the definitions, module by module, each after those that it cites."""
    out = ["## The definitions", ""] if pages.definitions else []
    for name in pages.modules_in_order():
        module = sources.modules[name]
        out += [f"### {module.path.relative_to(ROOT)}", ""]
        out += [prose(module.head, "--"), ""] if module.head else []
        out += [line for meant in names_meant(module, pages) for line in (meant, "")]
        for definition in module.definitions:
            if (name, definition.name) in pages.definitions:
                out += definition_lines(definition)
    return out


def definition_lines(definition):
    """Returns a definition as the page has it: the sentences above it, and then its lines."""
    sentences = [line for line in definition.sentences if line.startswith("--")]
    fixity = [line for line in definition.sentences if not line.startswith("--")]
    return ([prose(sentences, "--"), ""] if sentences else []) + code(fixity + definition.lines)


def kit_part(pages):
    """Returns the part of the page that names what the kit defines."""
    out = ["## What the kit defines", ""]
    return out + [f"- `{module}`: {', '.join(f'`{name}`' for name in sorted(names))}" for module, names in sorted(pages.kit.items())]


def clause_part(call, clause, members):
    """Returns the first part of the page: the clause, and what of the outside it names."""
    named = f"`{clause.name}` of " if clause.name else ""
    out = [f"# {named}`{call.title()}`", "", f"`{call.path.relative_to(ROOT)}`. {clause.comment}", "", *code(dedent(clause.text).splitlines())]
    for trait, sentences, line in members:
        out += [f"A member of the trait `{trait.name}`: {prose(sentences, '///')}", "", *code([line])]
    return out


def lines_in(items):
    return sum(len(item.sentences) + len([line for line in item.lines if line.strip()]) for item in items)


def write_book(sources, call, clause):
    """Writes the page of one clause, prints how long it is, and returns the names that nothing defines."""
    walk = Walk(sources)
    members = ghost_members(sources, call, clause.text)
    imports, aliases = imports_of(call.path.read_text().splitlines())
    walk.follow(call.name, clause.text, imports, aliases, {})
    for trait, _, line in members:
        walk.follow(trait.name, line, *imports_of(trait.path.read_text().splitlines()), {})
    pages = walk.pages
    write_page(sources, pages, clause_part(call, clause, members), ".".join([call.title().replace("::", "_"), clause.name]).rstrip("."))
    return pages.missing


def write_page(sources, pages, first, name):
    """Writes a page with this first part, and prints how long it is."""
    page = first + contents_part(sources, pages)
    page += type_part(pages) + definition_part(sources, pages) + kit_part(pages)
    target = ROOT / "build" / "book" / f"{name}.md"
    target.parent.mkdir(parents=True, exist_ok=True)
    target.write_text("\n".join(page) + "\n")
    print(
        f"{target.relative_to(ROOT)}: {len(pages.definitions)} of {sources.count()} definitions, of {len(pages.modules_in_order())} modules, in "
        f"{lines_in(pages.definitions.values())} lines; {len(pages.types)} types in {lines_in(pages.types.values())} lines; "
        f"{sum(map(len, pages.kit.values()))} names of the kit"
    )


def cited_by(sources, call, clause):
    """Returns what a clause cites, in the order in which it is found."""
    walk = Walk(sources)
    walk.follow(call.name, clause.text, *imports_of(call.path.read_text().splitlines()), {})
    return walk.pages.definitions.values()


def field_lines(definition, name):
    """Returns the lines of a record's field with the sentences above it, or nothing if the record has no such field."""
    starts = [at for at, line in enumerate(definition.lines) if re.match(r"  pub \w+ :", line)]
    for at, end in zip(starts, [*starts[1:], len(definition.lines)]):
        if definition.lines[at].startswith(f"  pub {name} :"):
            while definition.lines[at - 1].strip().startswith("--"):
                at -= 1
            while definition.lines[end - 1].strip().startswith("--"):
                end -= 1
            return definition.lines[at:end]
    return []


def field_of(sources, call, clause, name):
    """Returns the first record of the call's crate that the clause cites and that has this field, and the field's lines, if there is one."""
    for definition in cited_by(sources, call, clause):
        lines = field_lines(definition, name) if definition.module.startswith(f"{call.crate}.") else []
        if lines:
            return definition, lines
    return None


def write_field(sources, call, clause, name, definition, lines):
    """Writes the page of a clause's field, and returns the names that nothing defines."""
    text = [line for line in lines if not line.strip().startswith("--")]
    module = sources.modules[definition.module]
    walk = Walk(sources)
    walk.follow(module.name, "\n".join(text), module.imports, module.aliases, sources.named[module.name])
    said = prose([line for line in lines if line.strip().startswith("--")], "--")
    first = [f"# `{name}` of the clause `{clause.name}` of `{call.title()}`", "", f"`{module.path.relative_to(ROOT)}`. {said}", "", *code(text)]
    write_page(sources, walk.pages, first, f"{call.title()}.{clause.name}.{name}")
    return walk.pages.missing


def clauses_of(call_name, clause_name):
    """Returns the clauses of this name of the calls of that name, each with its call; all of their clauses without a name."""
    crates = ["iss_top"] if call_name == "run" else crate_order()
    calls = [call for crate in crates for call in calls_of(crate) if is_exported(call, exported_names(crate))]
    return [
        (call, clause)
        for call in calls
        if call_name in (call.name, call.title())
        for clause in call.clauses
        if clause_name in ("", clause.name) and clause.kind == "ensures"
    ]


def clauses_wanted(word):
    """Returns the clauses that a word names, each with its call: of `run` if it names no call, all of them without a word, and else those of
    the call that the word names."""
    call_name, _, clause_name = word.rpartition(".")
    return clauses_of(call_name or "run", clause_name) or clauses_of(word, "")


def main(words):
    word = words[0] if words else ""
    sources = Sources()
    wanted = clauses_wanted(word)
    clause_name, _, field_name = word.partition(".")
    of_run = clauses_wanted(clause_name) if field_name else []
    field = field_of(sources, *of_run[0], field_name) if of_run else None
    if field:
        missing = set(write_field(sources, *of_run[0], field_name, *field))
    elif wanted:
        missing = {name for call, clause in wanted for name in write_book(sources, call, clause)}
    else:
        sys.exit("No public call has a clause of that name: write CLAUSE=serve, CLAUSE=replay.moments or CLAUSE=calls_are_paid_once.paid.")
    for where, module, name in sorted(missing):
        print(f"{where} cites {name} of {module}, which nothing defines", file=sys.stderr)
    sys.exit(1 if missing else 0)


if __name__ == "__main__":
    main(sys.argv[1:])
