#!/usr/bin/env python3
"""Proves and builds the program, in a copy of the crates that it stands on, and leaves it in crates/cfs/out/cfs.

    tools/build.py

It runs the gate's own proofs, as many side by side as there are processors, on the program and on what is below it, with
no must-fail edit and no crate of tests. What it proves is kept on the machine, and `rt ci` takes it from there.
Ends with status 0 where the program was built.
"""
import os
import shutil
import subprocess
import sys
import tempfile

TOP = os.path.dirname(os.path.dirname(os.path.abspath(__file__)))
PROGRAM = "cfs"


def needed(lines, name, found):
    """Adds the crate, and those of the repository that it stands on, to found."""
    if name in lines and name not in found:
        found.append(name)
        for below in lines[name].split():
            needed(lines, below, found)
    return found


def copied(to):
    """Copies the crates that the program needs, and the lines and the handles that go with them."""
    with open(f"{TOP}/crates.txt", encoding="utf-8") as file:
        parts = [line.partition("#")[0].partition(":") for line in file]
    lines = {name.strip(): below for name, colon, below in parts if colon}
    names = needed(lines, PROGRAM, [])
    leave = shutil.ignore_patterns("out", "must-fail")
    for name in names:
        shutil.copytree(f"{TOP}/crates/{name}", f"{to}/crates/{name}", ignore=leave)
    with open(f"{to}/crates.txt", "w", encoding="utf-8") as file:
        file.writelines(f"{name}:{lines[name].rstrip()}\n" for name in names)
    shutil.copyfile(f"{TOP}/HANDLES", f"{to}/HANDLES")


def main():
    with tempfile.TemporaryDirectory(prefix="cfs-build-") as to:
        copied(to)
        status = subprocess.run(["rt", "ci"], cwd=to, stdin=subprocess.DEVNULL, check=False).returncode
        built = f"{to}/crates/{PROGRAM}/out/{PROGRAM}"
        if status or not os.path.isfile(built):
            return status or 1
        os.makedirs(f"{TOP}/crates/{PROGRAM}/out", exist_ok=True)
        shutil.copy2(built, f"{TOP}/crates/{PROGRAM}/out/{PROGRAM}")
    return 0


if __name__ == "__main__":
    sys.exit(main())
