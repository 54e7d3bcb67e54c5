"""Finds names in the documents that stand nowhere in the sources, and ends with 1 if there are any.

A name is what stands in backticks and looks like a crate, a file, a function, a clause, a definition, a `make` target or a
script; of code blocks, the scripts and targets that they run. Words of other programs that documents may cite stand in
`.ci/foreign_words`. CHANGELOG.md isn't read.
"""
import os
import re
import sys
from pathlib import Path

PART = r"[A-Za-z_][A-Za-z0-9_']*"
WORD = rf"{PART}(?:-[A-Za-z0-9_']+)*"
NAME = re.compile(rf"{WORD}(?:(?:\.|::){WORD}|\.\d+)*(?:\(\))?")
PATH = re.compile(r"[A-Za-z0-9_.*-]+(?:/[A-Za-z0-9_.*-]+)*/?")
FILE_ENDINGS = (".rt", ".antt", ".sh", ".py", ".md", ".edit", ".txt", ".c")
# What is made only when a target runs.
MADE = ("build/", "out/")
# A whole path, an ending of files, or a hash: no name of ours.
NO_NAME = re.compile(r"/.*|\.[a-z]+|[\d./]+|[0-9a-f]{16,}")
RUN = re.compile(r"(?:\$ )?(?:bash |sh |python3 )?([\w./-]+\.(?:sh|py)|make [a-z]+)\b")


def source_files():
    """Each file of the repository, but for what is made."""
    for folder, folders, names in os.walk("."):
        folders[:] = [name for name in folders if name not in (".git", "build", "out", "__pycache__")]
        yield from (Path(folder, name) for name in names)


def is_document(path):
    return path.suffix == ".md" or path.name == "laws.txt"


def is_placeholder(word):
    """A word in capitals, or a letter, that stands for any name."""
    return re.fullmatch(r"[A-Z]+|[A-Za-z]", word) is not None


def words_of(text):
    """Whole words, and the parts of words with dashes."""
    whole = set(re.findall(WORD, text))
    return whole | {part for word in whole for part in word.split("-")}


def citations(path):
    """The texts of a page that may be names, each with its line's number."""
    is_code = False
    for number, line in enumerate(path.read_text().splitlines(), 1):
        if line.startswith("```"):
            is_code = not is_code
            continue
        found = [match.group(1) for match in [RUN.match(line)] if match] if is_code else re.findall(r"`([^`]+)`", line)
        yield from ((path, number, text) for text in found)


class Sources:
    """What the sources have: files, words, modules of definitions, and targets of the Makefile."""

    def __init__(self, foreign):
        files = list(source_files())
        self.documents = [path for path in files if is_document(path) and path.name != "CHANGELOG.md" and path.parts[0] != "examples"]
        self.paths = {str(path) for path in files} | {str(folder) for path in files for folder in path.parents}
        self.words = set(foreign)
        self.modules = {}
        for path in files:
            if not is_document(path):
                self.add(path)
        self.targets = set(re.findall(r"^([a-z]+):", Path("Makefile").read_text(), re.M))

    def add(self, path):
        found = words_of(path.read_text(errors="replace"))
        self.words |= found | {path.stem, *path.parts}
        if path.suffix == ".antt" and "specs" in path.parts:
            self.modules.setdefault(path.stem, set()).update(found)

    def has_path(self, text):
        """Whether the text, in which `*` or NAME may stand for a part, is the end of a path, with or without its suffix."""
        pattern = re.escape(text.rstrip("/")).replace(r"\*", "[^/]*").replace("NAME", "[^/]*")
        wanted = re.compile(rf"(?:.*/)?{pattern}(?:\.antt|\.rt)?")
        return any(map(wanted.fullmatch, self.paths))

    def has_word(self, word):
        if word in self.words or is_placeholder(word):
            return True
        parts = word.split("-")
        return any(map(is_placeholder, parts)) and all(part in self.words or is_placeholder(part) for part in parts)

    def has_name(self, text):
        module, _, name = text.partition(".")
        if module in self.modules and re.fullmatch(WORD, name):
            return name in self.modules[module]
        return all(self.has_word(word) for word in re.split(r"\.|::", text.removesuffix("()")) if not word.isdigit())

    def has(self, text):
        """Whether the text stands in the sources, or is no name."""
        if text in self.words or NO_NAME.fullmatch(text) or text.startswith(MADE):
            return True
        if text.startswith("make "):
            return text.split()[1] in self.targets
        if PATH.fullmatch(text) and (text.endswith(FILE_ENDINGS) or "/" in text):
            return self.has_path(text)
        return not NAME.fullmatch(text) or self.has_name(text)


def foreign_words():
    lines = Path(".ci/foreign_words").read_text().splitlines()
    return [line for line in lines if line and not line.startswith("#")]


def main():
    foreign = foreign_words()
    sources = Sources(foreign)
    pages = [Path(name) for name in sys.argv[1:]] or sources.documents
    cited = [citation for page in pages for citation in citations(page)]
    missing = [citation for citation in cited if not sources.has(citation[2])]
    for page, number, text in missing:
        print(f"{page}:{number}: `{text}` stands nowhere in the sources")
    used = words_of(" ".join(text for _, _, text in cited)) | {text for _, _, text in cited}
    unused = [] if sys.argv[1:] else [word for word in foreign if word not in used]
    for word in unused:
        print(f".ci/foreign_words: no document cites {word}")
    print(f"names: {len(cited)} on {len(pages)} pages, {len(missing)} that stand nowhere")
    sys.exit(bool(missing or unused))


main()
