#!/usr/bin/env python3
"""Runs the gate and tells where its time goes: processor minutes by crate, and in each by kind.

    tools/gate_times.py [WORD ...]     runs `rt ci WORD ...` at the top of the repository; `--anew` for a run from nothing

Prints the gate's own output, and then a table: for each crate the minutes of its own check, of its tests' check and of its
must-fail edits, and last the sums, the rest (runs of programs and tests, and what was too short to be seen), how long the
run took and on how many processors. Ends with the gate's status. It looks at the processes that the gate starts four
times a second, so a figure is right to about a second for each of these.
"""
import collections
import os
import resource
import subprocess
import sys
import threading
import time

TOP = os.path.dirname(os.path.dirname(os.path.abspath(__file__)))
KINDS = ("check", "tests", "edits")
SECONDS = 1 / os.sysconf("SC_CLK_TCK")
PAUSE = 0.25


def told(pid):
    """What a process of the prover works on, and the seconds that it and its ended children took; None if it is none."""
    with open(f"/proc/{pid}/cmdline", "rb") as file:
        words = file.read().decode(errors="replace").split("\0")
    if os.path.basename(words[0]) != "rattle" or "--crate-name" not in words:
        return None
    with open(f"/proc/{pid}/stat", encoding="ascii", errors="replace") as file:
        fields = file.read().rpartition(")")[2].split()
    at = os.readlink(f"/proc/{pid}/cwd")
    kind = "edits" if "/rt-edit-" in at else "tests" if "--test" in words else "check"
    # (the fields after the name: the parent is the second, the four times are the twelfth to the fifteenth)
    return fields[1], (words[words.index("--crate-name") + 1], kind), SECONDS * sum(map(int, fields[11:15]))


def is_below(pid, parents, top):
    """Whether the process is one that the process top started, or one of these did."""
    while pid in parents and pid != top:
        pid = parents[pid]
    return pid == top


def look(seen):
    """Adds to seen what each process of the prover that this run started, and no other one of the prover, has taken so far."""
    found, parents = {}, {}
    for pid in filter(str.isdigit, os.listdir("/proc")):
        try:
            with open(f"/proc/{pid}/stat", encoding="ascii", errors="replace") as file:
                parents[pid] = file.read().rpartition(")")[2].split()[1]
            it = told(pid)
            if it:
                found[pid] = it
        except (OSError, ValueError, IndexError):
            continue
    own = str(os.getpid())
    for pid, (parent, what, seconds) in found.items():
        if parent not in found and is_below(pid, parents, own):
            before = seen.get(pid, (what, 0))
            if before[0] != what:
                # (the number of an ended process was given out again)
                seen[f"{pid} {len(seen)}"] = before
            seen[pid] = what, seconds


def table(seen, whole, wall):
    """The lines of the table."""
    taken = collections.Counter()
    for what, seconds in seen.values():
        taken[what] += seconds
    crates = sorted({crate for crate, _ in taken}, key=lambda it: -sum(taken[it, kind] for kind in KINDS))
    yield f"{'processor minutes':<24}" + "".join(f"{kind:>8}" for kind in KINDS) + f"{'all':>8}"
    for crate in [*crates, None]:
        row = [sum(n for (c, k), n in taken.items() if k == kind and crate in (c, None)) / 60 for kind in KINDS]
        yield f"{crate or 'all crates':<24}" + "".join(f"{it:8.1f}" for it in [*row, sum(row)])
    yield f"{'the rest':<24}{(whole - sum(taken.values())) / 60:32.1f}"
    yield f"{whole / 60:.0f} processor minutes in {wall / 60:.1f} minutes on {len(os.sched_getaffinity(0))} processors"


def main():
    seen, over, begun = {}, threading.Event(), time.monotonic()

    def watch():
        while not over.wait(PAUSE):
            look(seen)

    watcher = threading.Thread(target=watch)
    watcher.start()
    try:
        status = subprocess.run(["rt", "ci", *sys.argv[1:]], cwd=TOP, check=False).returncode
    finally:
        over.set()
        watcher.join()
    used = resource.getrusage(resource.RUSAGE_CHILDREN)
    print(*table(seen, used.ru_utime + used.ru_stime, time.monotonic() - begun), sep="\n")
    return status


if __name__ == "__main__":
    sys.exit(main())
