#!/usr/bin/env python3
"""Writes docs/INDEX.md: a line for each file of code and of definitions, crate by crate.

A file is told by the first sentence of the comment at its head, and one without such a comment ends
the script with status 1. Files that only name other files are left out. Run it again after a change
of files or of these comments: tools/index.py
"""
import re
import sys
from pathlib import Path

TOP = Path(__file__).resolve().parent.parent
HEAD = """# Index

Every file of code (`src/`) and of definitions (`specs/`), crate by crate, by the comment at its head. Files that only name other files are left out. `tools/index.py` writes this page. [ARCHITECTURE.md](ARCHITECTURE.md) has the map: what the crates are, and who stands on whom.
"""
def paragraph(lines, mark):
    """The text of the comment with this mark that stands at the head."""
    text = []
    for line in lines:
        said = line.strip()
        if said.startswith(mark) and said.rstrip() != mark:
            text.append(said[len(mark):].strip())
        elif text:
            break
    return " ".join(text)


def first_sentence(text):
    """The first sentence that says something of the file, and not how it is written."""
    for sentence in re.split(r"(?<=[^.]\.)\s+(?=[A-Z`])", text):
        if not re.match(r"Written by|Change th", sentence):
            return sentence.strip().rstrip(".")
    return text


def told(path):
    """What the index has of a file: the first sentence of the comment at its head."""
    lines = path.read_text(encoding="utf-8").split("\n")
    mark = "--" if path.suffix == ".antt" else "//!"
    if not lines[0].startswith(mark):
        sys.exit("%s does not begin with a comment" % path.relative_to(TOP))
    return first_sentence(paragraph(lines, mark))


def names_others_alone(path):
    code = [l for l in path.read_text(encoding="utf-8").split("\n") if l and not l.startswith("--")]
    return path.suffix == ".antt" and all(re.match(r"(pub )?mod \w+$", l) for l in code)


def files_of(crate):
    for folder, suffix in (("src", "*.rt"), ("specs", "*.antt")):
        for path in sorted((crate / folder).rglob(suffix)):
            if path != crate / "src" / "lib.rt" and not names_others_alone(path):
                yield path


def section(crate):
    library = crate / "src" / "lib.rt"
    lines = ["\n## %s\n" % crate.name]
    if library.exists():
        lines.append("%s.\n" % told(library))
    for path in files_of(crate):
        lines.append("- `%s`: %s" % (path.relative_to(crate), told(path)))
    return "\n".join(lines) + "\n"


def main():
    crates = sorted(path for path in (TOP / "crates").iterdir() if (path / "src").is_dir())
    text = HEAD + "".join(map(section, crates))
    (TOP / "docs" / "INDEX.md").write_text(text, encoding="utf-8")


main()
