#!/usr/bin/env -S python3 -B
"""Writes crates/query_rows/proofs/Rows/*.antt from crates/query_rows/rows.txt: queries, the inputs that
they read, and what they come to, each to be found by computing the definitions.

A row of rows.txt is some lines, with an empty line behind them:

    NAME                the row's name, which the proof's field has
    QUERY               the query, on one line
    < INPUT LINE / ..   for each input: its name, and its values in JSON; `INPUT missing` and
                        `INPUT CODE` are inputs that are missing, or whose first faulty line has that
                        code
    > ITEM / ITEM       the text of each item, or
    > CODE at @         the fault, with ` clause C tuple T` where it has a spot; its place is marked by
                        an `@` in the query

`# TITLE` begins a new file, named by the title's first word. Expected values come from the language's
rules, never from running the program. Run it again after a change of the table: tools/query_rows.py

tools/query_rows.py --run PROGRAM writes nothing: it runs each row with a built program, as MODES have
it, and compares what that prints. It runs the rows of examples/tables/*.txt too, which have the same
form and of which nothing is proved.
"""
import json
import re
import subprocess
import sys
import tempfile
from collections import Counter
from pathlib import Path

from layout import without_unused

REPOSITORY = Path(__file__).resolve().parent.parent
TOP = REPOSITORY / "crates"
ROWS = TOP / "query_rows"
TABLES = REPOSITORY / "examples" / "tables"
# the words with which each row is run: over pieces of a byte each, over pieces as usual, in one place
MODES = [["--workers", "3", "--partition", "1"], [], ["--mode", "local"]]
WORDS = (TOP / "query_grammar" / "specs" / "Words.antt").read_text()
GRAMMAR = (TOP / "query_grammar" / "specs" / "Grammar.antt").read_text()

# the crates whose definitions the rows compute with, and what of them must be unfolded
COMPUTED = [
    "num_fixed", "item_tree", "json_text", "date_atoms", "value_rules", "fn_table", "atom_ops",
    "tuple_rows", "group_table", "order_runs", "grammar_parts", "query_meaning",
]


def unfoldable_names():
    files = [f for crate in COMPUTED for f in sorted((TOP / crate / "specs").rglob("*.antt"))]
    # how an evaluator sees its own values is no part of what a query means
    files = [f for f in files if not f.is_relative_to(TOP / "query_meaning" / "specs" / "inside")]
    files += [TOP / "query_grammar" / "specs" / name for name in ("Classes.antt", "Grammar.antt")]
    for f in files:
        names = re.findall(r"^ *unfoldable pub (\S+) :", f.read_text(), re.M)
        if names:
            crate = f.relative_to(TOP).parts[0]
            module = ".".join(f.relative_to(TOP / crate / "specs").with_suffix("").parts)
            yield crate, module, names


def alias(crate, module):
    return "%s_%s" % (crate, module.lower().replace(".", "_"))


UNFOLDED = " ".join(
    "%s.%s" % (alias(crate, module), name) for crate, module, names in unfoldable_names() for name in names
)
IMPORTED = [
    "use Rattle.%s.specs.%s as %s" % (crate, module, alias(crate, module))
    for crate, module, _ in unfoldable_names()
]

KINDS = dict(re.findall(r'row \(codes "([^"]+)"\) k\.(\w+)', WORDS))
TOKEN = re.compile(
    r"(?P<blank>[ \n]+)|(?P<var>\$err:code|\$[A-Za-z_][\w-]*)|(?P<context>\$\$)"
    r"|(?P<dec>\d*\.\d+)|(?P<int>\d+)|(?P<name>[A-Za-z_][\w-]*)|(?P<text>\"(?:[^\"\\]|\\.)*\")"
    r"|(?P<mark>\{\||\|\}|\|\||:=|!=|<=|>=|[()\[\]{},;:.!|+*=<>#?-])"
)
CODE = re.compile(r"[A-Z]{4}\d{4}")
FAULT = re.compile(CODE.pattern + " at @")

# of each code that a faulty line may have, such a line
FAULTY_LINES = {
    "JNDY0021": "{",
    "PJDY0002": "[" * 129 + "]" * 129,
    "PJDY0004": "1" + "0" * 20,
}


def codes(text):
    """A list of characters, as antt writes it."""
    if all(" " <= c <= "~" for c in text):
        return 'codes "%s"' % text.replace("\\", "\\\\").replace('"', '\\"')
    return "".join("%d ∷ " % ord(c) for c in text) + "[]"


def words_of(query):
    """The tokens of a query as the grammar reads them."""
    out, at, place = [], 0, 0
    while at < len(query):
        m = TOKEN.match(query, at)
        assert m, (query, at)
        kind, text = m.lastgroup, m.group()
        if kind == "name":
            out.append("name k.%s %d (%s)" % (KINDS.get(text, "Name"), place, codes(text)))
        elif kind == "var":
            out.append("name k.Var %d (%s)" % (place, codes(text[1:])))
        elif kind == "text":
            out.append("name k.Text %d (%s)" % (place, codes(json.loads(text))))
        elif kind == "int":
            out.append("whole k.Int %d %d" % (place, int(text)))
        elif kind == "dec":
            front, back = text.split(".")
            out.append("units k.Dec %d %d" % (place, int(front or 0) * 10**6 + int((back + "000000")[:6])))
        elif kind == "context":
            out.append("mark k.Context %d" % place)
        elif kind == "mark":
            out.append("mark k.%s %d" % (KINDS[text], place))
        at = m.end()
        place += len(text.encode())
    return " ∷ ".join("(%s)" % w for w in out) + " ∷ []"


def datum(value):
    """A value of JSON; decimals are told by their point."""
    if value is None:
        return "null"
    if isinstance(value, bool):
        return "boolean %s" % str(value).lower()
    if isinstance(value, int):
        return "integer (%s)" % whole(value)
    if isinstance(value, str) and value.startswith("\0"):
        return "decimal (%s)" % whole(int(value[1:]))
    if isinstance(value, str):
        return "text (%s)" % codes(value)
    if isinstance(value, list):
        return "array_of_list (%s)" % listed(map(datum, value))
    return "object_of_pairs (%s)" % listed("(%s, %s)" % (codes(k), datum(v)) for k, v in value.items())


def whole(n):
    return "pos %d" % n if n >= 0 else "negsuc %d" % (-n - 1)


def listed(parts):
    return "".join("(%s) ∷ " % p for p in parts) + "[]"


def decimal(text):
    sign, rest = (-1, text[1:]) if text.startswith("-") else (1, text)
    front, _, back = rest.partition(".")
    return "\0%d" % (sign * (int(front) * 10**6 + int((back + "000000")[:6])))


def texts(line):
    """The texts of values or of items that stand in a line."""
    return [text for text in line.split(" / ") if text]


def entry(line):
    name, _, rest = line.partition(" ")
    if rest == "missing":
        held = "None"
    elif CODE.fullmatch(rest):
        held = "Some (Err c.%s)" % rest
    else:
        values = [json.loads(v, parse_float=decimal) for v in texts(rest)]
        held = "Some (Ok (%s))" % listed(map(datum, values))
    return "(%s, %s)" % (codes(name), held)


def read_table(text):
    files = []
    for block in re.split(r"\n\s*\n", text.strip()):
        lines = block.split("\n")
        if lines[0].startswith("# "):
            files.append((lines[0][2:], []))
            lines = lines[1:]
        if not lines:
            continue
        name, query = lines[0], lines[1]
        inputs = [l[2:] for l in lines[2:] if l.startswith("< ")]
        gives = [l[1:].strip() for l in lines[2:] if l.startswith(">")]
        assert len(gives) == 1 and len(lines) == 3 + len(inputs), block
        files[-1][1].append((name, query, inputs, gives[0]))
    return files


def expected(query, gives):
    """What is told of the outcome: each item's text with a stroke behind it, or the fault."""
    if FAULT.match(gives):
        return codes(gives.replace("@", str(query.index("@") + 1)))
    assert "@" not in query, query
    text = "".join(item + "/" for item in texts(gives))
    return codes("".join(map(chr, text.encode())))


def file_of(title, rows):
    word = title.split()[0]
    record = word + "Rows"
    lines = [
        "-- Written by tools/query_rows.py from rows.txt. Change that, and run it again.",
        "-- %s." % title,
        "use Rattle.std.proofs.Common.{◌≡◌, ℕ, pos, negsuc, true, false, List, [], ◌∷◌, Some, None, Ok, Err, codes, refl}",
        "use Rattle.std.specs.Fmt.{digits}",
        "use Rattle.std.specs.Str.{chars}",
        "use lib.Utf8.{encode}",
        "use Rattle.item_tree.specs.declared.code.Code.TheVariants as c",
        "use Rattle.item_tree.specs.Datum.{null, boolean, integer, decimal, text, array_of_list, object_of_pairs}",
        "use Rattle.query_grammar.specs.declared.word.Kind.TheVariants as k",
        "use Rattle.query_rows.proofs.Computing.{name, mark, whole, units, Gives}",
    ] + IMPORTED + ["", "pub record %s : Type 0 where" % record]
    for name, query, inputs, gives in rows:
        text = query.replace("@", "")
        lines.append("  -- %s" % text)
        lines.append("  pub %s : Gives (%s)" % (name, words_of(text)))
        lines.append("      (%s)" % listed(map(entry, inputs)))
        lines.append("      (%s)" % expected(query, gives))
    lines += ["", "pub %s_rows : %s" % (word.lower(), record), "unfolding digits encode chars " + UNFOLDED]
    lines += ["%s_rows = record {" % word.lower()]
    lines += ["  %s = refl;" % name for name, *_ in rows]
    lines += ["}", ""]
    return word, "\n".join(lines)


def written_table():
    return read_table((ROWS / "rows.txt").read_text())


def write_proofs():
    files = written_table()
    folder = ROWS / "proofs" / "Rows"
    folder.mkdir(exist_ok=True)
    for old in folder.glob("*.antt"):
        old.unlink()
    for title, rows in files:
        word, text = file_of(title, rows)
        (folder / (word + ".antt")).write_text(without_unused(text))
    (ROWS / "proofs" / "Rows.antt").write_text(
        "-- Written by tools/query_rows.py.\n" + "".join("mod %s\n" % title.split()[0] for title, _ in files)
    )


# ---- rows that a built program runs


def answer(query, gives):
    """What is printed for a row, on standard output and on standard error, and the exit status."""
    if FAULT.match(gives):
        place = "1:%d" % (query.index("@") + 1)
        return "", "raised %s\n" % gives.replace("@", place), 1
    return "".join(item + "\n" for item in texts(gives)), "", 0


def unmade(inputs):
    """The codes of inputs of which no line is known that has them."""
    rests = [line.partition(" ")[2] for line in inputs]
    return [rest for rest in rests if CODE.fullmatch(rest) and rest not in FAULTY_LINES]


def file_text(rest):
    """A line for each value of an input, or the line that has its code."""
    lines = [FAULTY_LINES[rest]] if rest in FAULTY_LINES else texts(rest)
    return "".join(line + "\n" for line in lines)


def files_of(query, inputs):
    """The files of a row by their names: its query, and each input that is not missing."""
    files = {"q": query.replace("@", "")}
    for line in inputs:
        name, _, rest = line.partition(" ")
        if rest != "missing":
            files[name] = file_text(rest)
    return files


def printed(program, folder, mode):
    """What the program prints and its exit status, in the folder of a row."""
    words = [program, "run", "q", *mode]
    run = subprocess.run(words, cwd=folder, stdin=subprocess.DEVNULL, capture_output=True)
    out, err = (text.decode(errors="replace") for text in (run.stdout, run.stderr))
    return out, err, run.returncode


def run_row(program, name, query, inputs, gives):
    """How a row ended: passed, failed or skipped. Says why, unless it passed."""
    for code in unmade(inputs):
        print("row %s: skipped, as no line is known that has %s" % (name, code))
        return "skipped"
    wanted, ended = answer(query, gives), "passed"
    with tempfile.TemporaryDirectory() as folder:
        for file, text in files_of(query, inputs).items():
            (Path(folder) / file).write_bytes(text.encode())
        for mode in MODES:
            got = printed(program, folder, mode)
            if got != wanted:
                print("row %s %s: %s" % (name, " ".join(mode), query))
                print("  wanted: %r %r status %d" % wanted)
                print("  got:    %r %r status %d" % got)
                ended = "failed"
    return ended


def run_rows(program):
    """The exit status: 0 where some rows passed and none failed."""
    tables = [written_table()] + [read_table(t.read_text()) for t in sorted(TABLES.glob("*.txt"))]
    rows = [row for table in tables for _, rows in table for row in rows]
    ended = Counter(run_row(program, *row) for row in rows)
    print("rows: %(passed)d passed, %(failed)d failed, %(skipped)d skipped" % ended)
    return 0 if ended["passed"] and not ended["failed"] else 1


def main():
    if not sys.argv[1:]:
        write_proofs()
    elif sys.argv[1] == "--run" and len(sys.argv) == 3:
        sys.exit(run_rows(Path(sys.argv[2]).resolve()))
    else:
        sys.exit("usage: tools/query_rows.py [--run PROGRAM]")


main()
