"""Counts sentences over 25 words in docs/, page by page: nine of ten are to have at most 25. With `-v`, prints them.

Code blocks are left out, and so are headings and the cells of a table that hold no sentence of five words.
A word is what stands between blanks; a name in backticks counts as one.
"""
import re
import sys
from pathlib import Path

MOST = 25
SHARE = 0.9


def without_blocks(text):
    """The lines outside of code blocks and headings."""
    is_code = False
    for line in text.splitlines():
        if line.startswith("```"):
            is_code = not is_code
            yield ""
        elif not is_code:
            yield "" if line.startswith("#") else line


def pieces(text):
    """Paragraphs, list items and cells of tables."""
    paragraph = []
    for line in [*without_blocks(text), ""]:
        bare = line.strip()
        is_item = re.match(r"([-*]|\d+\.)\s", bare)
        if not bare or is_item or bare.startswith("|"):
            if paragraph:
                yield " ".join(paragraph)
            paragraph = []
        if bare.startswith("|"):
            yield from (cell.strip() for cell in re.split(r"(?<!\\)\|", bare) if len(cell.split()) >= 5)
        elif bare:
            paragraph.append(re.sub(r"^([-*]|\d+\.)\s+", "", bare))


def sentences(piece):
    """A piece cut after each full stop, question mark or exclamation mark that ends a sentence."""
    plain = re.sub(r"`[^`]*`", "NAME", piece)
    plain = re.sub(r"\[([^\]]*)\]\([^)]*\)", r"\1", plain)
    return [s for s in re.split(r"(?<=[.!?])[*)\"]*\s+(?=[A-Z*(`\"])", plain) if s.split()]


def page(path, is_verbose):
    """How many sentences a page has, and how many are too long."""
    every = [s for piece in pieces(path.read_text()) for s in sentences(piece)]
    long = [s for s in every if len(s.split()) > MOST]
    share = 1 - len(long) / max(1, len(every))
    print(f"{path}: {len(every)} sentences, {len(long)} over {MOST} words, {100 * share:.0f} % within")
    if is_verbose:
        for sentence in long:
            print(f"  {len(sentence.split())}: {sentence}")
    return len(every), len(long)


def main():
    words = sys.argv[1:]
    is_verbose = "-v" in words
    paths = [Path(word) for word in words if word != "-v"] or sorted(Path("docs").glob("*.md"))
    counts = [page(path, is_verbose) for path in paths]
    every, long = (sum(column) for column in zip(*counts))
    share = 1 - long / max(1, every)
    print(f"all: {every} sentences, {long} over {MOST} words, {100 * share:.0f} % within; the aim is {100 * SHARE:.0f} %")


main()
