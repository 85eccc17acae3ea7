#!/usr/bin/env python3
"""Brings the names of this repository's own definitions and lemmas to snake case.

usage: python3 tools/snake_names.py [FOLDER]    in a repository that port.py of the kit has turned

A definition is a name that a file of specs/, or a lemma file right in proofs/, gives a type. Its words may be joined by
hyphens or by capitals (`readAt`, `read-within`); they are joined by `_` afterwards (`read_at`, `read_within`), wherever the
name is cited: in specs, proofs, contracts, must-fail edits and pages. Types, modules, functions of src/ and the names that
Rattle gives to goals keep theirs. Two names that would fall together stop it before anything is written.
"""

import os
import re
import sys

DEFINES = re.compile(r"^\s*(?:(?:abbrev|unfoldable|opaque|pub)\s+)*([^\s:(){}=,;\[\].]+)\s+:\s")
RULESET = re.compile(r"^\s*(?:pub\s+)?ruleset\s+([^\s:(){}=]+)")
TOKEN = re.compile(r"[A-Za-z_][A-Za-z0-9_'-]*[A-Za-z0-9_']|[A-Za-z_]")
FUNCTION_PROOFS = ("Answers.antt", "Invariants.antt", "Choices.antt", "Proof.antt")


def files(top, endings):
    for folder, dirs, names in os.walk(top):
        dirs[:] = sorted(d for d in dirs if d not in ("out", ".git", "target"))
        for name in sorted(names):
            if name.endswith(endings):
                yield os.path.join(folder, name)


def read(path):
    with open(path, encoding="utf-8") as f:
        return f.read()


def is_word(name):
    """Whether this is the name of a definition or a lemma that is not in snake case yet."""
    return bool(re.match(r"^[a-z][\w'-]*$", name)) and ("-" in name or re.search(r"[a-z0-9][A-Z]|[A-Z]", name) is not None)


def snake(name):
    name = re.sub(r"(?<=[a-z0-9])(?=[A-Z])", "_", name)
    return name.replace("-", "_").lower()


def definitions(top):
    found = set()
    for path in files(os.path.join(top, "crates"), (".antt",)):
        parts = path.split(os.sep)
        if os.path.basename(path) in FUNCTION_PROOFS or "specs" not in parts and parts[-2] != "proofs":
            continue
        for line in read(path).split("\n"):
            for pattern in (DEFINES, RULESET):
                m = pattern.match(line)
                if m:
                    found.add(m.group(1))
    return found


def turned(text, renaming):
    def one(m):
        name = m.group(0)
        new = renaming.get(name)
        if new is None:
            return name
        # a projection keeps its hyphens: it may be a name that Rattle gave
        if "-" in name and m.start() > 0 and text[m.start() - 1] == ".":
            return name
        return new
    return TOKEN.sub(one, text)


def turned_page(text, renaming):
    """In a page, hyphens are turned in code alone."""
    capitals = {k: v for k, v in renaming.items() if "-" not in k}
    text = turned(text, capitals)
    return re.sub(r"`[^`\n]+`", lambda m: turned(m.group(0), renaming), text)


def main():
    top = sys.argv[1] if len(sys.argv) > 1 else "."
    own = definitions(top)
    renaming = {name: snake(name) for name in sorted(own) if is_word(name)}
    # a lemma that falls together with a definition (`get-answer`, `getAnswer`) says that it holds
    taken = {renaming.get(name, name) for name in own if "-" not in name}
    for name, new in renaming.items():
        if "-" in name and new in taken:
            renaming[name] = new + "_holds"
            print(f"look: `{name}` fell together with `{new}`, and is `{new}_holds`")
    seen = {}
    for name in sorted(own):
        new = renaming.get(name, name)
        if new in seen:
            sys.exit(f"snake_names: `{name}` and `{seen[new]}` would both be `{new}`")
        seen[new] = name
    tops = [os.path.join(top, "crates")]
    sources = [p for t in tops for p in files(t, (".antt", ".rt", ".edit"))]
    for path in sources:
        text = read(path)
        tokens = set(TOKEN.findall(text))
        for name in sorted(tokens & set(renaming)):
            if renaming[name] in tokens:
                print(f"look: {path}: `{renaming[name]}` stood here already, beside `{name}`")
    pages = [p for p in files(top, (".md",)) if os.sep + "crates" + os.sep not in p]
    changed = 0
    for path, turn in [(p, turned) for p in sources] + [(p, turned_page) for p in pages]:
        text = read(path)
        new = turn(text, renaming)
        if new != text:
            changed += 1
            with open(path, "w", encoding="utf-8") as f:
                f.write(new)
    print(f"{len(renaming)} names turned, in {changed} files")


if __name__ == "__main__":
    main()
