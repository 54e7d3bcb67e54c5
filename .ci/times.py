#!/usr/bin/env python3
"""Runs a gate and says what it took, crate by crate: processor seconds of proofs, tests and wrong bodies.

    .ci/times.py COMMAND..        as in .ci/times.py .ci/run

It looks at the processes ten times in a second and adds up what each had used when it was last seen. So what a process
used after that is missing: the last line compares the sum with what the system counted. Where the command ends with
another status than 0, so does this.
"""
import collections
import os
import resource
import subprocess
import sys
import time

TICK = os.sysconf("SC_CLK_TCK")
KINDS = ("proofs", "tests", "wrong bodies", "programs", "checks")


def read(path):
    try:
        with open(path, "rb") as it:
            return it.read()
    except OSError:
        return b""


def kind_of(words, pid):
    """Returns what a process works on: a crate and a kind of work, or none of the prover's."""
    if not words or os.path.basename(words[0]) != b"rattle" or b"--crate-name" not in words:
        return None
    crate = words[words.index(b"--crate-name") + 1].decode()
    try:
        folder = os.readlink(f"/proc/{pid}/cwd")
    except OSError:
        return None
    if "/rt-edit-" in folder:
        return crate, "wrong bodies"
    if b"--crate-checked" in words:
        return crate, "programs"
    return crate, "tests" if b"--test" in words else "proofs"


def look(seen, root):
    """Notes what each process below the command has used so far."""
    parents, used = {}, {}
    for pid in filter(str.isdigit, os.listdir("/proc")):
        fields = read(f"/proc/{pid}/stat").rpartition(b")")[2].split()
        if len(fields) > 19:
            parents[int(pid)] = int(fields[1])
            used[int(pid)] = (int(fields[19]), (int(fields[11]) + int(fields[12])) / TICK)
    for pid, (began, seconds) in used.items():
        above = pid
        while above in parents and above != root:
            above = parents[above]
        if above != root:
            continue
        key = pid, began
        if key not in seen:
            words = read(f"/proc/{pid}/cmdline").split(b"\0")
            seen[key] = [kind_of(words, pid), 0, time.time()]
        if seen[key][0] is None:
            seen[key][0] = kind_of(read(f"/proc/{pid}/cmdline").split(b"\0"), pid)
        seen[key][1] = seconds


def table(seen):
    """Prints the seconds by crate and kind, the dearest first."""
    sums = collections.defaultdict(lambda: collections.Counter())
    for kind, seconds, _ in seen.values():
        crate, what = kind or ("all else", "checks")
        sums[crate][what] += seconds
    print("| crate | " + " | ".join(KINDS) + " | all |\n" + "|---" * (len(KINDS) + 2) + "|")
    for crate, its in sorted(sums.items(), key=lambda it: -sum(it[1].values())):
        print(f"| `{crate}` | " + " | ".join(f"{its[it]:.0f}" if its[it] else "" for it in KINDS) + f" | {sum(its.values()):.0f} |")
    whole = collections.Counter()
    for its in sums.values():
        whole.update(its)
    print("| all | " + " | ".join(f"{whole[it]:.0f}" for it in KINDS) + f" | {sum(whole.values()):.0f} |")
    return sum(whole.values())


def main(words):
    if not words:
        print(__doc__, file=sys.stderr)
        return 2
    began, seen = time.time(), {}
    run = subprocess.Popen(words)
    while run.poll() is None:
        look(seen, run.pid)
        time.sleep(0.1)
    clock, use = time.time() - began, resource.getrusage(resource.RUSAGE_CHILDREN)
    added = table(seen)
    print(f"\n{clock / 60:.1f} minutes by the clock, {(use.ru_utime + use.ru_stime) / 60:.1f} of a processor ({use.ru_utime / 60:.1f} user, {use.ru_stime / 60:.1f} system); {added / 60:.1f} of them are seen above")
    return run.returncode


if __name__ == "__main__":
    sys.exit(main(sys.argv[1:]))
