#!/usr/bin/env python3
"""Wrong bodies, which the prover must refuse: one file each, in crates/NAME/must-fail/ if the gate tries it, else in
crates/NAME/mutants/. Edits of statements and definitions stand in mutants/statements/.

    .ci/mutants.py stand            each edit can still be made, and the gate doesn't try too many
    .ci/mutants.py try [CRATE..]    all edits, or those of these crates, are tried in a copy
"""
import pathlib
import shutil
import subprocess
import sys
import tempfile

ROOT = pathlib.Path(__file__).resolve().parent.parent
MOST_TRIED, MOST_CRATES = 45, 14


def edits(crate):
    """Returns the files of a crate's edits, those that the gate tries first."""
    return sorted(crate.glob("must-fail/*.edit")) + sorted(crate.glob("mutants/**/*.edit"))


def fault(crate, edit):
    """Returns why an edit can't be made, if it can't: each old text stands once in what the pairs before it leave."""
    file, old, texts = None, None, {}
    for line in edit.read_text().splitlines():
        key, _, text = line.partition(": ")
        if key == "file":
            file = text
            if file not in texts:
                if not (crate / file).is_file():
                    return f"there is no file {file}"
                texts[file] = (crate / file).read_text()
        elif key == "old":
            old = text
        elif line.startswith("new:"):
            if not file or old is None:
                return "a new text without its old one"
            count = texts[file].count(old)
            if count != 1:
                return f"an old text stands {count} times in {file}, not once: {old}"
            texts[file], old = texts[file].replace(old, text), None
    if not texts or old is not None:
        return "a file, an old text or a new one is missing"
    return None


def stand(crates):
    """Says which edits can't be made any more, and whether the gate tries too many."""
    said = []
    for crate in crates:
        names = [it.name for it in edits(crate)]
        said += [f"{crate.name}: {it} stands twice" for it in sorted({it for it in names if names.count(it) > 1})]
        for it in edits(crate):
            why = fault(crate, it)
            said += [f"{it.relative_to(ROOT)}: {why}"] if why else []
    tried = {crate.name: len(list(crate.glob("must-fail/*.edit"))) for crate in crates}
    count, places = sum(tried.values()), sum(1 for it in tried.values() if it)
    if count > MOST_TRIED or places > MOST_CRATES:
        said.append(f"the gate tries {count} edits in {places} crates, and {MOST_TRIED} in {MOST_CRATES} are the most")
    print("\n".join(said) or f"{sum(len(edits(it)) for it in crates)} edits stand; the gate tries {count} of them in {places} crates")
    return not said


def try_all(crates):
    """Tries the edits of these crates in a copy, and says which weren't refused."""
    names = [it.name for it in crates if edits(it)]
    with tempfile.TemporaryDirectory(prefix="mutants-") as room:
        copied = shutil.ignore_patterns(".git", "build")
        shutil.copytree(ROOT, room, dirs_exist_ok=True, ignore=copied)
        for name in names:
            folder = pathlib.Path(room, "crates", name, "must-fail")
            folder.mkdir(exist_ok=True)
            for it in folder.parent.glob("mutants/**/*.edit"):
                shutil.copy(it, folder)
        # It proves the crates first, but for what an earlier run of it proved on this machine.
        ran = subprocess.run(["rt", "ci", *names], cwd=room, stdout=subprocess.PIPE, stderr=subprocess.STDOUT, text=True)
    said = [it for it in ran.stdout.splitlines() if any(f"must-fail {name}/" in it for name in names)]
    refused = [it for it in said if ": refused, as it must be" in it]
    print("\n".join(said) or ran.stdout, flush=True)
    for it in said:
        if it not in refused:
            print(f"NOT REFUSED {it}")
    wanted = sum(len(edits(it)) for it in crates)
    print(f"{len(refused)} of {wanted} wrong bodies and statements were refused")
    return len(refused) == wanted


def main(words):
    every = [it for it in sorted(ROOT.glob("crates/*")) if (it / "src").is_dir()]
    if words == ["stand"]:
        return 0 if stand(every) else 1
    crates = [it for it in every if it.name in (words[1:] or [it.name])]
    if words[:1] == ["try"] and len(crates) >= len(words[1:]):
        return 0 if try_all(crates) else 1
    print(__doc__, file=sys.stderr)
    return 2


if __name__ == "__main__":
    sys.exit(main(sys.argv[1:]))
