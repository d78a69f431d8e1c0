#!/usr/bin/env python3
"""Brings the names of definitions and lemmas to the spelling of today's Rattle: snake case in place of camel case.

usage: python3 tools/names.py [FOLDER]   rewrites every .rt and .antt file below FOLDER/crates (FOLDER: the repository, if not given)

A name is a run of letters, digits, _ and '; a dash joins names, and each is turned alone. Types, modules and facts start with a capital and stay.
Rust has no camel case here, so no function of src/ is touched. Names that fall together in one file are printed.
"""
import os
import re
import sys

NAME = re.compile(r"[A-Za-z_][A-Za-z0-9_']*")
KEPT = {"not_T"}  # of the library


def turned(name):
    if name in KEPT or not name[0].islower() or not re.search("[A-Z]", name):
        return name
    return re.sub(r"_?([A-Z])", lambda m: "_" + m.group(1).lower(), name)


def files(root):
    for folder, dirs, names in os.walk(os.path.join(root, "crates")):
        dirs[:] = sorted(d for d in dirs if d != "out")
        for name in sorted(names):
            if name.endswith((".rt", ".antt")):
                yield os.path.join(folder, name)


def main():
    root = sys.argv[1] if len(sys.argv) > 1 else os.path.join(os.path.dirname(os.path.realpath(__file__)), "..")
    changed = 0
    for path in files(root):
        with open(path, encoding="utf-8") as f:
            text = f.read()
        found = set(NAME.findall(text))
        for name in sorted(found):
            if turned(name) != name and turned(name) in found:
                print(f"look: {os.path.relpath(path, root)}: {name} and {turned(name)}")
        new = NAME.sub(lambda m: turned(m.group()), text)
        if new != text:
            changed += 1
            with open(path, "w", encoding="utf-8") as f:
                f.write(new)
    print(f"names: {changed} files changed")


main()
