#!/usr/bin/env python3
"""Breaks lines of clauses and definitions that are longer than 100 columns.

    tools/layout.py FILE..     rewrites the files in place

Lines of `use`, comments and tests stay as they are. The makers of files beside this one lay out
by it what they write, and leave out the imports that nothing uses.
"""
import re
import sys

WIDTH = 100
OPENING, CLOSING = "([{", ")]}"
# What binds least comes first: a line is broken before the first of these that stands outermost.
LOOSENESS = [
    ["then", "else"],
    ["→", "λ"],
    ["×", "⊎"],
    ["↔", "≡", "≢"],
    ["||"],
    ["&&"],
    ["++", "∷"],
    ["+", "-", "=="],
]


def spaces(text):
    """The spaces of a text at which it may be broken, each with its depth in brackets."""
    depth = 0
    for at, c in enumerate(text):
        if c in OPENING:
            depth += 1
        elif c in CLOSING:
            depth -= 1
        elif c == " " and 0 < at < len(text) - 1:
            yield at, depth


def looseness(text, at):
    """How loosely the text hangs together at a space: the less, the better to break there."""
    word = text[at + 1 :].split(" ", 1)[0]
    behind = text[:at].rsplit(" ", 1)[-1]
    if behind.endswith(";"):
        return 0
    if behind.endswith((".", ":", "=")):
        return 1
    for rank, words in enumerate(LOOSENESS):
        if word in words:
            return rank
        if behind in words or behind in ("if", "¬"):
            return len(LOOSENESS) + 2
    if word in (":", "=", "in") or behind in ("pub", "let", "in", "record"):
        return len(LOOSENESS) + 3
    return len(LOOSENESS)


def pieces(text, first, rest):
    """The text in pieces: the first of at most `first` columns, each further of at most `rest`."""
    if len(text) <= first:
        return [text]
    fitting = [(at, depth) for at, depth in spaces(text) if at <= first]
    if not fitting:
        return [text]
    outermost = min(depth for _, depth in fitting)
    at = min(
        ((looseness(text, at), -at) for at, depth in fitting if depth == outermost)
    )[1] * -1
    return [text[:at]] + pieces(text[at + 1 :], rest, rest)


def fields(text):
    """The fields of a text that is one record, or none."""
    if not (text.startswith("record { ") and text.endswith(" }")):
        return []
    inner, found, from_, depth = text[9:-2].rstrip(";"), [], 0, 0
    for at, c in enumerate(inner):
        depth += (c in OPENING) - (c in CLOSING)
        if depth < 0:
            return []
        if c == ";" and depth == 0:
            found.append(inner[from_:at].strip())
            from_ = at + 1
    return found + [inner[from_:].strip()]


def record(head, body, indent):
    """A record with each field on a line of its own, behind what stands in front of it."""
    lines = [" " * indent + head + "record {"]
    for field in fields(body):
        parts = pieces(field + ";", WIDTH - indent - 2, WIDTH - indent - 6)
        lines.append(" " * (indent + 2) + parts[0])
        lines += [" " * (indent + 6) + part for part in parts[1:]]
    return "\n".join(lines + [" " * indent + "}"])


def broken_definition(line):
    indent = len(line) - len(line.lstrip(" "))
    text = line[indent:]
    more = indent + 4
    head = re.match(r"((?:pub |abbrev |unfoldable )*[^:=()\[\]{}]*?(?:\([^()]*(?:\([^()]*(?:\([^()]*\)[^()]*)*\)[^()]*)*\)[^:=()\[\]{}]*?)* =) (.*)", text)
    if fields(text):
        return record("", text, indent)
    if head and fields(head.group(2)) and more + len(head.group(2)) > WIDTH:
        return record(head.group(1) + " ", head.group(2), indent)
    if head and indent + len(head.group(1)) <= WIDTH:
        body = pieces(head.group(2), WIDTH - more, WIDTH - more)
        parts = [head.group(1)] + body
    else:
        parts = pieces(text, WIDTH - indent, WIDTH - more)
    return "\n".join(
        [" " * indent + parts[0]] + [" " * more + part for part in parts[1:]]
    )


def broken_clause(line):
    indent = len(line) - len(line.lstrip(" "))
    head = re.match(r" *((?:ensures|requires|ghost \w+ =)(?: \w+)? \{) (.*)", line)
    more = indent + 4
    first = WIDTH - indent - len(head.group(1)) - 1
    body, closing = re.match(r"(.*) (\};?)$", head.group(2)).groups()
    parts = pieces(body, first - len(closing) - 1, WIDTH - more - len(closing) - 1)
    parts[-1] += " " + closing
    return "\n".join(
        [" " * indent + head.group(1) + " " + parts[0]]
        + [" " * more + part for part in parts[1:]]
    )


def broken_line(line, is_code):
    if len(line) <= WIDTH:
        return line
    if is_code:
        if re.match(r" *(ensures|requires|ghost \w+ =)( \w+)? \{ ", line):
            return broken_clause(line)
        return line
    if re.match(r" *(--|use |pub use |pub mod |mod |let |\||,|\])", line):
        return line
    return broken_definition(line)


def broken(text, is_code=False):
    return "\n".join(broken_line(line, is_code) for line in text.split("\n"))


def used_only(line, text):
    """An import of those names alone that the text uses, or none."""
    m = re.fullmatch(r"(use \S+\.)\{(.*)\}", line)
    if not m:
        word = re.fullmatch(r"use \S+ as (\w+)", line)
        return None if word and not re.search(rf"(?<![\w.]){word.group(1)}\.", text) else line
    names = [n for n in m.group(2).split(", ")
             if (n.startswith("◌") and n.strip("◌") in text) or re.search(rf"(?<![\w.'-]){re.escape(n)}(?![\w'-])", text)]
    return f"{m.group(1)}{{{', '.join(names)}}}" if names else None


def without_unused(text):
    """The text of a file without the imports that it does not use."""
    lines = text.split("\n")
    rest = "\n".join(line for line in lines if not line.startswith("use "))
    kept = [used_only(line, rest) if line.startswith("use ") else line for line in lines]
    return "\n".join(line for line in kept if line is not None)


def main():
    for name in sys.argv[1:]:
        with open(name, encoding="utf8") as file:
            before = file.read()
        after = broken(before, name.endswith(".rt"))
        if after != before:
            with open(name, "w", encoding="utf8") as file:
                file.write(after)


if __name__ == "__main__":
    main()
