#!/usr/bin/env python3
"""Sees that what the types rule out does not compile.

usage: python3 tools/does_not_compile.py    at the top of the repository

The gate counts a must-fail edit that does not compile as bad, since it says nothing of a contract. What a type rules out
stands in crates/NAME/does-not-compile/*.edit instead: a line 'file: src/NAME.rt', a line 'old: TEXT' (standing once in that
file), a line 'new: TEXT', and a line 'says: TEXT', which has to stand in an error of that file. The edits are tried on a
copy: the crate's tests run as they are, and with an edit they do not compile, for the reason that the edit gives.
"""

import os
import shutil
import subprocess
import sys
import tempfile


def tried(crate):
    run = subprocess.run(["rt", "try", "--test"], cwd=crate, stdin=subprocess.DEVNULL, capture_output=True, text=True)
    return run.returncode, run.stdout + run.stderr


def fields(path):
    with open(path, encoding="utf-8") as f:
        parts = dict(line.rstrip("\n").split(": ", 1) for line in f if line.strip())
    if sorted(parts) != ["file", "new", "old", "says"]:
        sys.exit(f"{path}: wants the lines file, old, new and says")
    return parts


def fails_as_told(crate, name, edit):
    path = os.path.join(crate, edit["file"])
    with open(path, encoding="utf-8") as f:
        text = f.read()
    if text.count(edit["old"]) != 1:
        print(f"{name}: its old text stands {text.count(edit['old'])} times in {edit['file']}")
        return False
    with open(path, "w", encoding="utf-8") as f:
        f.write(text.replace(edit["old"], edit["new"]))
    status, said = tried(crate)
    with open(path, "w", encoding="utf-8") as f:
        f.write(text)
    errors = [line for line in said.split("\n") if line.startswith(edit["file"]) and " error" in line]
    if status == 1 and any(edit["says"] in line for line in errors):
        print(f"{name}: does not compile, as it must not")
        return True
    print(f"{name}: was to say '{edit['says']}', and said:\n{said[-2000:]}")
    return False


def main():
    top = tempfile.mkdtemp(prefix="does-not-compile-")
    good = True
    try:
        shutil.copytree("crates", os.path.join(top, "crates"), ignore=shutil.ignore_patterns("out"))
        shutil.copy("crates.txt", top)
        for crate in sorted(os.listdir("crates")):
            folder = os.path.join("crates", crate, "does-not-compile")
            if not os.path.isdir(folder):
                continue
            copy = os.path.join(top, "crates", crate)
            status, said = tried(copy)
            if status != 0:
                print(f"{crate}: its tests do not run as they are:\n{said[-2000:]}")
                good = False
                continue
            for name in sorted(os.listdir(folder)):
                good = fails_as_told(copy, f"{crate}/{name}", fields(os.path.join(folder, name))) and good
    finally:
        shutil.rmtree(top, ignore_errors=True)
    return 0 if good else 1


if __name__ == "__main__":
    sys.exit(main())
