#!/usr/bin/env -S python3 -B
"""Tells which files the headline cites, and fails where docs/READING.md lacks one: tools/reading.py.

The files are those that the definition of the answer names in its imports, and those that these
name in turn, without what a crate's types are declared as.
"""
import re
import sys
from pathlib import Path

TOP = Path(__file__).resolve().parent.parent
ANSWER = "rumble_run.specs.Answer"
IMPORT = re.compile(r"^(?:pub )?use Rattle\.(\w+\.specs(?:\.\w+)+)", re.M)


def file_of(module):
    """The file of definitions that a name in an import stands in, if it stands in one."""
    parts = module.split(".")
    while len(parts) > 2:
        path = TOP.joinpath("crates", *parts).with_suffix(".antt")
        if path.exists():
            return path
        parts.pop()
    return None


def cited(module):
    found, left = set(), [file_of(module)]
    while left:
        path = left.pop()
        if path and path not in found:
            found.add(path)
            left += map(file_of, IMPORT.findall(path.read_text(encoding="utf-8")))
    return found


def named(text):
    """The files that the page names: a name without a crate is of the crate before it."""
    crate, names = "", set()
    for name in re.findall(r"`((?:\w+/)?(?:inside/)?[A-Z]\w*)`", text):
        parts = name.split("/")
        if parts[0] not in ("inside", parts[-1]):
            crate = parts.pop(0)
        names.add(TOP.joinpath("crates", crate, "specs", *parts).with_suffix(".antt"))
    return names


def main():
    files = cited(ANSWER)
    missing = sorted(files - named((TOP / "docs/READING.md").read_text(encoding="utf-8")))
    for path in missing:
        print("docs/READING.md does not name %s" % path.relative_to(TOP))
    lines = sum(len(path.read_text(encoding="utf-8").splitlines()) for path in files)
    print("the headline cites %d files, %d lines" % (len(files), lines))
    sys.exit(bool(missing))


main()
