#!/usr/bin/env python3
"""Writes share/rumble.1, the manual page, and share/rumble.bash, which completes words in bash.

Both come from the tables of words, of options and of statuses in docs/USING.md, and from the examples
of the launcher's help. Run it again when one of these changes: tools/words.py
"""
import pathlib
import re

TOP = pathlib.Path(__file__).resolve().parent.parent
CODE = re.compile(r"`([^`]+)`")

PAGE = r""".\" tools/words.py writes this page.
.TH RUMBLE 1
.SH NAME
rumble \- evaluate JSONiq queries over JSON Lines
.SH SYNOPSIS
{synopsis}.SH DESCRIPTION
.B rumble
evaluates a query of JSONiq, the query language for JSON, and prints each item of its value as one
line of compact JSON. In the query,
.B json\-lines("NAME")
reads the file of JSON Lines of that name, and the standard input where the name is
.IR /dev/stdin .
{words}.SH OPTIONS
Options stand anywhere after the first word, as
.B \-\-name value
or as
.BR \-\-name=value .
{options}.SH EXIT STATUS
{statuses}.SH EXAMPLES
.nf
{examples}.fi
"""

COMPLETION = """# Completes the words of rumble in bash. tools/words.py writes this file.

_rumble() {{
  local word=${{COMP_WORDS[COMP_CWORD]}} before=${{COMP_WORDS[COMP_CWORD - 1]}} verb=${{COMP_WORDS[1]}} other
  for other in "${{COMP_WORDS[@]:1:COMP_CWORD-1}}"; do
    [[ $other != -e ]] || verb=-e
  done
  if [[ $before == '=' ]]; then
    before=${{COMP_WORDS[COMP_CWORD - 2]}}
  elif [[ $word == '=' ]]; then
    word=
  fi
  COMPREPLY=()
  case $before in
{values}  esac
  if [ "$COMP_CWORD" -eq 1 ]; then
    {first}
  elif [[ $word == -* ]]; then
    case $verb in
{options}    esac
  elif [[ $verb == @({files}) ]]; then
    mapfile -t COMPREPLY < <(compgen -f -- "$word")
  fi
}}
complete -o filenames -F _rumble rumble
"""


def tables():
    """The rows of each table of docs/USING.md, by the table's first line."""
    found, rows = {}, None
    for line in (TOP / "docs/USING.md").read_text().split("\n"):
        if not line.startswith("| "):
            rows = rows if line.startswith("|-") else None
        elif rows is None:
            rows = found.setdefault(line, [])
        else:
            rows.append([cell.strip() for cell in line.strip("|").split(" | ")])
    return found


def roff(text):
    """A text of the documents as it stands in a page: code is bold, and a link is its name."""
    text = re.sub(r" \(\[[^]]*\]\([^)]*\)(, \"[^\"]*\")?\)", "", text)
    text = re.sub(r"\[([^]]*)\]\([^)]*\)", r"\1", text).replace("**", "")
    text = text.replace("\\", "\\e").replace("-", "\\-")
    return CODE.sub(r"\\fB\1\\fR", text)


def names(cell):
    return CODE.findall(cell)


def page(words, options, statuses, examples):
    def entry(row, text):
        return f".TP\n{roff(row)}\n{roff(text)}\n"

    synopsis = [roff(f"`{form}`") for row in words for form in names(row[0])]
    return PAGE.format(
        synopsis="\n.br\n".join(synopsis) + "\n",
        words="".join(entry(row[0], row[1]) for row in words),
        options="".join(entry(row[0], f"Of {row[1]}: {row[2]}") for row in options),
        statuses="".join(entry(row[0], row[1]) for row in statuses),
        examples="".join(roff(line.strip()) + "\n" for line in examples),
    )


def offer(words):
    return f"mapfile -t COMPREPLY < <(compgen -W '{words}' -- \"$word\")"


def completion(words, options):
    first = [form.split()[1] for row in words for form in names(row[0])]
    verbs = [word for word in dict.fromkeys(first) if not word.startswith("--")]
    values = {"-e": []}
    for row in options:
        for form in names(row[0]):
            name, _, value = form.partition(" ")
            if value:
                values.setdefault(name, []).append(value)
    lists = {name: [value for value in of if value.islower()] for name, of in values.items()}
    told = ["    " + " | ".join(name for name, of in lists.items() if not of) + ") return ;;\n"]
    for name, of in lists.items():
        if of:
            told.append(f"    {name})\n      {offer(' '.join(of))}\n      return\n      ;;\n")
    taken = []
    for verb in verbs:
        of = [form.split()[0] for row in options if verb in names(row[1]) for form in names(row[0])]
        taken.append(f"      {verb}) {offer(' '.join(dict.fromkeys(of)))} ;;\n")
    return COMPLETION.format(
        first=offer(" ".join(dict.fromkeys(first))), values="".join(told), options="".join(taken),
        files="|".join(verb for verb in verbs if verb != "trial"),
    )


def main():
    found = tables()
    words, options = found["| Words | What they do |"], found["| Option | Of | What it does |"]
    statuses = found["| Status | How it ended | What to do |"]
    told = (TOP / "launcher/help.bash").read_text()
    examples = told.split("Examples:\n")[1].split("HELP\n")[0].splitlines()
    (TOP / "share").mkdir(exist_ok=True)
    (TOP / "share/rumble.1").write_text(page(words, options, statuses, examples))
    (TOP / "share/rumble.bash").write_text(completion(words, options))


if __name__ == "__main__":
    main()
