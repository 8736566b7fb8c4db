#!/usr/bin/env python3
"""Writes two files of crates/query_grammar/proofs from the productions of
crates/query_grammar/specs/Grammar.antt, with a line or two for each.

Productions.antt has their laws. Each names the first tokens of its production and the tokens that can
go on with a whole one; both are worked out here, and the check proves them. It also says where one
token of foresight would not tell how to go on.

Nested.antt says of each that, where so many forms may nest, it has exactly the values that are nested
no deeper. How deep a value is nested, and what a node adds to its parts, stands in Depths.antt: a
lemma NODE-depth where arithmetic alone doesn't tell.

A production is an `unfoldable pub NAME : Lang TYPE` and, on the next line, its right side. Run it again
after a change of the grammar: tools/grammar_laws.py
"""
import itertools
import re
from pathlib import Path

from layout import used_only

TOP = Path(__file__).resolve().parent.parent / "crates" / "query_grammar"


# ---- reading the grammar

def joined(text):
    """The text with each definition that is broken into lines on one line."""
    return re.sub(r"\n {4,}(?=[^ -])", " ", text)


def tokens_of(text):
    return re.findall(r"[()]|[^\s()]+", text)


def parse(tokens):
    """A list of the parts of an application; a word stands alone."""
    out = []
    while tokens:
        t = tokens.pop(0)
        if t == "(":
            out.append(parse(tokens))
        elif t == ")":
            break
        else:
            out.append(t)
    return out[0] if len(out) == 1 else out


def productions(text):
    found = []
    for m in re.finditer(r"^( *)unfoldable pub (\S+) : Lang (.+)\n\s*(\S+) = (.+)$", text, re.M):
        indent, name, kind, again, body = m.groups()
        assert name == again, name
        found.append((name, strip_all(kind), plain(parse(tokens_of(body))), bool(indent)))
    return found


def whole_productions(text):
    """The right sides with the classes that the reader looks for."""
    lines = re.findall(r"^ *unfoldable pub (\S+) : Lang .+\n\s*\S+ = (.+)$", text, re.M)
    return {name: parse(tokens_of(body)) for name, body in lines}


def plain(e):
    """The part without the classes that the reader looks for, which follow from it."""
    if isinstance(e, str):
        return e
    op, a = e[0], [plain(x) for x in e[1:]]
    if op in ("inner", "top"):
        return f"{op}.{a[0][2:].lower()}"
    if op in ("alt", "opt", "many", "many_long", "some_of"):
        return [op, *a[1:]]
    if op == "ahead":
        return [op, a[0], a[1], a[3], a[4]]
    if op == "only":
        return [op, a[0][2:], a[1]]
    return [op, *a]


def kinds():
    body = (TOP / "src" / "word.rt").read_text()
    body = body[body.index("pub enum Kind {"):]
    return re.findall(r"^    ([A-Z]\w*),", body[:body.index("\n}")], re.M)


def classes(all_kinds):
    """The kinds in each class of specs/Classes.antt, by whether the grammar is the wider one."""
    found = {}
    text = (TOP / "specs" / "Classes.antt").read_text()
    for name in re.findall(r"^abbrev pub (is_\S+) :", text, re.M):
        rules = re.findall(rf"^{name} (wide )?(k\.\w+|_) = (\w+)$", text, re.M)
        for wide in (False, True):
            said = {}
            for _, kind, value in rules:
                truth = {"true": True, "false": False, "wide": wide}[value]
                for k in all_kinds if kind == "_" else [kind[2:]]:
                    said.setdefault(k, truth)
            found[name, wide] = frozenset(k for k in all_kinds if said[k])
    return found


# ---- sets of tokens

PARTS = ("inner.expr", "inner.single", "top.expr", "top.single")
MODES = list(itertools.product((False, True), repeat=3))  # wide, room, room inside


class Grammar:
    def __init__(self):
        text = joined((TOP / "specs" / "Grammar.antt").read_text())
        self.kinds = kinds()
        self.classes = classes(self.kinds)
        self.list = productions(text)
        self.body = {name: body for name, _, body, _ in self.list}
        self.type = {name: kind for name, kind, _, _ in self.list}
        self.in_module = {name: inside for name, _, _, inside in self.list}
        self.first = {(n, m): frozenset() for n in self.body for m in MODES}
        self.ext = dict(self.first)
        self.none = {n: False for n in self.body}
        while self.round():
            pass

    def round(self):
        changed = False
        for n, body in self.body.items():
            none = self.empty(body)
            changed |= none != self.none[n]
            self.none[n] = none
            for m in MODES:
                f, e = self.firsts(body, m), self.exts(body, m)
                changed |= f != self.first[n, m] or e != self.ext[n, m]
                self.first[n, m], self.ext[n, m] = f, e
        return changed

    def class_of(self, c, m):
        if isinstance(c, list):
            if c[0] == "is":
                return frozenset([c[1][2:]])
            return self.classes[c[0], m[0]]
        return self.classes[c, m[0]]

    def empty(self, e):
        if isinstance(e, str):
            return self.none.get(e, False)
        op, a = e[0], e[1:]
        if op in ("opt", "many", "many_long"):
            return True
        if op in ("seq", "long"):
            return self.empty(a[0]) and self.empty(a[1])
        if op == "alt":
            return self.empty(a[1])
        if op in ("mapped", "only"):
            return self.empty(a[1])
        return False

    def firsts(self, e, m):
        if isinstance(e, str):
            if e in PARTS:
                return self.first["single", (m[0], m[2], False)]
            return self.first[e, m]
        op, a = e[0], e[1:]
        if op == "one":
            return self.class_of(a[0], m)
        if op in ("tok", "before", "from"):
            return frozenset([a[0][2:]])
        if op in ("seq", "long"):
            return self.firsts(a[0], m) | (self.firsts(a[1], m) if self.empty(a[0]) else frozenset())
        if op == "alt":
            return self.firsts(a[0], m) | self.firsts(a[1], m)
        if op == "only":
            return self.firsts(a[1], m) if m[{"wide": 0, "room": 1}[a[0]]] else frozenset()
        if op == "mapped":
            return self.firsts(a[1], m)
        if op in ("opt", "many", "many_long", "some_of", "behind"):
            return self.firsts(a[0], m)
        if op == "list_of":
            return self.firsts(a[1], m)
        if op == "ahead":
            return self.firsts(a[2], m) | self.firsts(a[3], m)
        if op == "unless":
            return self.firsts(a[1], m) - self.class_of(a[0], m)
        raise ValueError(e)

    def exts(self, e, m):
        if isinstance(e, str):
            if e in ("inner.expr", "top.expr"):
                return frozenset().union(*(self.ext["expr", x] for x in MODES))
            if e in ("inner.single", "top.single"):
                return frozenset().union(*(self.ext["single", x] for x in MODES))
            return self.ext[e, m]
        op, a = e[0], e[1:]
        if op in ("one", "tok", "behind"):
            return frozenset()
        if op in ("before", "from"):
            return self.exts(a[1], m) | (frozenset())
        if op in ("seq", "long"):
            return self.exts(a[1], m) | (self.exts(a[0], m) if self.empty(a[1]) else frozenset())
        if op == "alt":
            return self.exts(a[0], m) | self.exts(a[1], m) | (self.firsts(a[0], m) if self.empty(a[1]) else frozenset())
        if op in ("mapped", "only", "unless"):
            return self.exts(a[1], m)
        if op in ("opt", "many", "many_long", "some_of"):
            return self.exts(a[0], m) | self.firsts(a[0], m)
        if op == "list_of":
            return self.exts(a[1], m) | frozenset([a[0][2:]])
        if op == "ahead":
            return self.exts(a[2], m) | self.exts(a[3], m) | self.class_of(a[1], m)
        raise ValueError(e)

    def clashes(self, e, m, at):
        """Where one token of foresight doesn't tell how to go on."""
        if isinstance(e, str):
            return
        op, a = e[0], e[1:]
        if op in ("seq", "behind") or op in ("before", "from", "list_of", "some_of"):
            pass
        for x in a:
            if isinstance(x, list) and x[0] not in ("is", "is_literal", "n.chain", "n.typed", "n.order_clause"):
                yield from self.clashes(x, m, at)
        if op == "seq":
            both = self.exts(a[0], m) & self.firsts(a[1], m)
            if both:
                yield at, "seq", sorted(both)
        if op == "behind" and a[1][2:] in self.exts(a[0], m):
            yield at, "behind", a[1]
        if op == "alt":
            both = self.firsts(a[0], m) & self.firsts(a[1], m)
            if both or self.empty(a[0]):
                yield at, "alt", sorted(both)
        if op in ("many", "some_of"):
            both = self.exts(a[0], m) & self.firsts(a[0], m)
            if both or self.empty(a[0]):
                yield at, op, sorted(both)
        if op == "list_of" and (a[0][2:] in self.exts(a[1], m) or self.empty(a[1])):
            yield at, op, a[0]
        if op == "opt" and self.empty(a[0]):
            yield at, op, a[0]


# ---- sets by name

FLAGS = ("m.wide", "m.room", "m.room_in")


def truth(test):
    return tuple(test(m) for m in MODES)


VALUES = {truth(lambda m: True): "true", truth(lambda m: False): "false"}
for i, flag in enumerate(FLAGS):
    VALUES[truth(lambda m: m[i])] = flag
    if i:
        VALUES[truth(lambda m: m[0] and m[i])] = f"m.wide && {flag}"
        VALUES[truth(lambda m: m[0] or m[i])] = f"m.wide || {flag}"
VALUES[truth(lambda m: m[1] and m[2])] = "m.room && m.room_in"
VALUES[truth(lambda m: m[1] or m[2])] = "m.room || m.room_in"


def named_sets():
    """The sets of the productions that specs/Classes.antt names: their functions of the flags."""
    text = (TOP / "specs" / "Classes.antt").read_text()
    found = {}
    for name in re.findall(r"^abbrev pub (\w+_first) :", text, re.M):
        flags = re.search(rf"^{name}((?: (?:wide|room))*) (?:k|_)", text, re.M).group(1).split()
        found[name] = flags
    return found


class Sets:
    """Terms for sets of kinds that depend on the mode. A set without a name of its own gets one here."""

    def __init__(self, grammar):
        self.g = grammar
        self.lines = []
        self.names = {}
        self.known = {}
        for name, flags in named_sets().items():
            base = name[:-6]
            base = {"pair": "pair", "argument": "argument"}.get(base, base)
            inside = base in ("pair", "argument")
            by_mode = {m: grammar.first[base, m] for m in MODES}
            self.known[self.key(by_mode)] = self.call(name, flags, inside)
            if base == "single":
                self.known[self.key({m: grammar.firsts("inner.single", m) for m in MODES})] = self.call(name, flags, True)

    def call(self, name, flags, inside):
        return " ".join([name] + [{"wide": "m.wide", "room": "m.room_in" if inside else "m.room"}[f] for f in flags])

    def key(self, by_mode):
        return tuple(frozenset(by_mode[m]) for m in MODES)

    def term(self, by_mode, name):
        key = self.key(by_mode)
        kinds = frozenset().union(*key)
        if not kinds:
            return "never"
        if key in self.known:
            return self.known[key]
        tables = {truth(lambda m: k in by_mode[m]) for k in kinds}
        if len(tables) == 1:
            value = VALUES[tables.pop()]
            word = self.constant(kinds)
            if word:
                return word if value == "true" else f"given {value} {word if ' ' not in word else '(' + word + ')'}"
        if all(by_mode[m] == self.g.classes["is_literal", m[0]] for m in MODES):
            return "is_literal m.wide"
        if key not in self.names:
            count = sum(n == name or re.fullmatch(rf"{name}_\d+", n) is not None for n in self.names.values())
            name = f"{name}_{count + 1}" if count else name
            self.names[key] = name
            self.write(by_mode, kinds, name)
        return self.names[key] + " m"

    def constant(self, kinds):
        if len(kinds) == 1:
            return f"is k.{next(iter(kinds))}"
        for (c, wide), ks in self.g.classes.items():
            if ks == kinds and c != "is_literal":
                return c
        return None

    def write(self, by_mode, kinds, name):
        values = {k: VALUES[truth(lambda m: k in by_mode[m])] for k in self.g.kinds}
        default = max(sorted(set(values.values())), key=list(values.values()).count)
        self.lines.append(f"abbrev pub {name} : Set Kind")
        for k, v in values.items():
            if v != default:
                self.lines.append(f"{name} m k.{k} = {v}")
        self.lines.append(f"{name} m _ = {default}")
        self.lines.append("")


# ---- laws

class Writer:
    def __init__(self):
        self.g = Grammar()
        self.sets = Sets(self.g)
        self.ground = ""  # the ground that a law is given, where it stands in another file

    def first(self, e, name):
        return "(λ m. " + self.sets.term({m: self.g.firsts(e, m) for m in MODES}, name + "_firsts") + ")"

    def ext(self, e, name):
        every = frozenset().union(*(self.g.exts(e, m) for m in MODES))
        return "(λ m. " + self.sets.term({m: every for m in MODES}, name + "_ext") + ")"

    def is_inside(self, e):
        """Whether the part has parts that stand inside a form, and isn't itself a form round them."""
        if isinstance(e, str):
            return e in PARTS or (e in self.g.body and self.is_inside(self.g.body[e]))
        if e[0] == "only" and e[1] == "room":
            return False
        return any(self.is_inside(x) for x in e[1:])

    def leads(self, e):
        """Whether a part that stands inside a form may come first."""
        if isinstance(e, str):
            return e in PARTS or (e in self.g.body and self.leads(self.g.body[e]))
        op, a = e[0], e[1:]
        if op in ("tok", "one", "before", "from"):
            return False
        if op in ("seq", "long"):
            return self.leads(a[0]) or (self.g.empty(a[0]) and self.leads(a[1]))
        return any(self.leads(x) for x in a)

    def wrap(self, e, law, name):
        """The law with sets by name, where it is none of a production or of a token."""
        if isinstance(e, str) or e[0] in ("one", "tok"):
            return law
        return f"(named {self.first(e, name)} {self.ext(e, name)} {law} refl)"

    def law(self, e, name, outer):
        """The law of a part; `outer`: its first token is outside the form whose parts it has."""
        if isinstance(e, str):
            if e in PARTS:
                return f"(w.laws r i.{e.split('.')[1].capitalize()})"
            return self.reference(e, outer)
        op, a = e[0], e[1:]
        again = lambda x: self.law(x, name, outer)
        if op == "tok":
            return f"(one_at (λ wide. is {a[0]}))"
        if op == "one":
            return f"(one_at (λ wide. {words(a[0]).strip('()').replace('m.wide', 'wide')}))"
        if op == "mapped":
            return f"(mapped_at _ {again(a[1])})"
        if op == "seq":
            return self.sequence(a[0], a[1], name, outer)
        if op == "long":
            return f"(long_at {again(a[0])} {again(a[1])})"
        if op == "alt":
            return f"(alt_at {self.wrap(a[0], again(a[0]), name)} {self.wrap(a[1], again(a[1]), name)} refl)"
        if op == "opt":
            return f"(opt_at {self.wrap(a[0], again(a[0]), name)} refl)"
        if op == "many":
            return f"(many_at {self.wrap(a[0], again(a[0]), name)} refl)"
        if op == "many_long":
            return f"(many_long_at {self.wrap(a[0], again(a[0]), name)})"
        if op == "only":
            r = "r" if a[0] == "room" else "o"
            return f"(only_at (λ m. m.{a[0]}) (λ {r}. {strip(again(a[1]))}))"
        if op in ("before", "from"):
            return f"(mapped_at _ {self.sequence(['tok', a[0]], a[1], name, outer)})"
        if op == "behind":
            return f"(mapped_at _ {self.sequence(a[0], ['tok', a[1]], name, outer)})"
        if op == "list_of":
            more = self.law(["before", a[0], a[1]], name, False)
            more = self.wrap(["before", a[0], a[1]], more, name)
            return f"(mapped_at _ (seq_at {again(a[1])} (many_at {more} refl) refl))"
        if op == "some_of":
            part = self.wrap(a[0], again(a[0]), name)
            return f"(mapped_at _ (seq_at {part} (many_at {part} refl) refl))"
        if op == "unless":
            return f"(unless_at {words(a[0])} {again(a[1])})"
        if op == "ahead":
            key = self.g.body[a[2]]
            assert key[0] == "mapped" and key[2][0] == "seq"
            return f"(ahead_at {{f2 = {self.first(a[3], name)}}} {words(a[0])} {words(a[1])} _ {self.law(key[2][2], name, outer)} {again(a[3])})"
        raise ValueError(e)

    def sequence(self, a, b, name, outer):
        if outer and (self.is_inside(b) or self.leads(b)):
            return f"(behind_at w.one_less {self.law(a, name, True)} {self.law(b, name, False)} refl)"
        return f"(seq_at {self.law(a, name, outer)} {self.law(b, name, outer)} refl)"

    def reference(self, e, outer):
        self.production(e, outer)
        word = (f"{e}-law" if outer else f"{e}-inside") + self.ground
        word = f"{word} r" if self.is_inside(self.g.body[e]) else word
        return f"({word})" if " " in word else word

    def production(self, name, outer):
        """Writes the law of a production, after those that it rests on."""
        if (name, outer) in self.done:
            return
        self.done.add((name, outer))
        body = self.g.body[name]
        law = self.law(body, name, outer)
        word, kind = ("law", "Law") if outer else ("inside", "LawInside")
        flag = "true" if self.g.empty(body) else "false"
        premise, argument = ("w.mode.room ≡ true → ", " r") if self.is_inside(body) else ("", "")
        part = f"g.{name}" if self.g.in_module[name] else f"(λ m inner. g.{name})"
        opened = " ".join([f"g.{name}"] + [f"g.{x[3]}" for x in [body] if x[0] == "ahead"] + ["is"])
        self.lines.append(f"  pub {name}-{word} : {premise}{kind} w {part} {self.first(body, name)} {self.ext(body, name)} {flag}")
        self.lines.append(f"  unfolding {opened}")
        self.lines.append(f"  {name}-{word}{argument} = named _ _ {law} refl")
        self.lines.append("")

    def text(self):
        self.lines = []
        self.done = set()
        for name in ("expr", "single"):
            self.production(name, True)
        self.production("module_part", False)
        ext = {n: self.ext(n, n) for n in ("expr", "single")}
        return HEAD.format(kinds=" ∷ ".join(f"k.{k}" for k in self.g.kinds), sets="\n".join(self.sets.lines),
                           laws="\n".join(self.lines), expr=ext["expr"], single=ext["single"])


# ---- what nests

DEPTHS = {
    "Tree": "tree_depth", "PairKey × ℕ": "key_depth", "Pair": "pair_depth", "List Pair": "(greatest pair_depth)",
    "List Tree": "(greatest tree_depth)", "ℕ → Step": "(step_at_depth at)", "Lookup": "lookup_depth",
    "Step": "step_depth", "List Step": "(greatest step_depth)", "Operand": "operand_depth",
    "List Operand": "(greatest operand_depth)", "Factor": "factor_depth", "List Factor": "(greatest factor_depth)",
    "Term": "term_depth", "List Term": "(greatest term_depth)", "Option (ℕ × Tree)": "(of_any placed_depth)",
    "CompareOp × ℕ × Tree": "compared_depth", "Option (CompareOp × ℕ × Tree)": "(of_any compared_depth)",
    "Clause": "clause_depth", "List Clause": "(greatest clause_depth)", "ℕ × List Clause": "clauses_depth",
    "Option Tree": "(of_any tree_depth)", "GroupVar": "group_var_depth", "List GroupVar": "(greatest group_var_depth)",
    "OrderKey": "order_key_depth", "List OrderKey": "(greatest order_key_depth)",
    "List (List Clause)": "(greatest (greatest clause_depth))", "Bind": "bind_depth",
    "List Bind": "(greatest bind_depth)", "Case": "case_depth", "List Case": "(greatest case_depth)",
    "TypeCase": "type_case_depth", "List TypeCase": "(greatest type_case_depth)", "Catch": "catch_depth",
    "List Catch": "(greatest catch_depth)", "Option (Placed Name) × Tree": "default_depth",
    "Declaration": "declaration_depth", "List Declaration": "(greatest declaration_depth)", "Module": "module_depth",
}


class NestingWriter:
    """Writes that productions count what nests in them."""

    def __init__(self, laws):
        self.laws = laws
        self.g = laws.g
        laws.ground = " w"
        self.body = whole_productions(joined((TOP / "specs" / "Grammar.antt").read_text()))
        depths = (TOP / "proofs" / "Depths.antt").read_text()
        self.nodes = set(re.findall(r"^pub (\S+)-depth :", depths, re.M))
        self.lines = []
        self.done = set()

    def named(self, e):
        """The productions of the mode that a part names."""
        if isinstance(e, str):
            return [e] if e in self.body and self.g.in_module[e] else []
        return [n for x in e for n in self.named(x)]

    def is_open(self, c):
        return "m.room" in words(c)

    def stop(self, e):
        """The class that stops a part where more may nest: what it lets in there."""
        if isinstance(e, str):
            return self.stop(self.body[e]) if e in self.body else None
        if e[0] == "opt" and self.is_open(e[1]):
            return e[1]
        return self.stop(e[2]) if e[0] == "mapped" else None

    def law(self, e, name):
        """The law of a part, with sets by name."""
        e = plain(e)
        outer = True
        if isinstance(e, str):
            outer = (e, True) in self.laws.done
        elif any((n, False) in self.laws.done for n in self.named(e)):
            outer = False
        return self.laws.wrap(e, self.laws.law(e, name, outer), name)

    def node(self, f):
        """What a node adds to its parts."""
        word = f if isinstance(f, str) else f[0]
        if word == "n.listed":
            return "(listed-depth _)"
        if word in ("n.chain", "n.typed"):
            same = "λ t os. refl" if word == "n.chain" else "λ t place of. refl"
            return f"({word[2:]}-depth {f[1]} ({same}))"
        if word[2:] in self.nodes:
            return f"({word[2:]}-depth {f[1]})" if isinstance(f, list) else f"{word[2:]}-depth"
        return "(λ x. omega arith)"

    def counts(self, e, name, outer):
        if isinstance(e, str):
            return self.reference(e, outer)
        op, a = e[0], e[1:]
        again = lambda x: self.counts(x, name, outer)
        depth = DEPTHS.get(self.g.type[name])
        if op in ("inner", "top"):
            assert not outer, name
            return f"(u.counts r {a[0]})"
        if op in ("tok", "one"):
            return f"(plain {self.mode_of(e)})"
        if op == "mapped":
            if a[0] == "n.step_at":
                assert a[1][0] == "from"
                return f"(step_counts {a[1][1]} (λ at. {strip(again(a[1][2]))}))"
            return f"(mapped_counts {depth} {words(a[0])} {self.node(a[0])} {again(a[1])})"
        if op in ("seq", "long"):
            return f"(seq_counts {again(a[0])} {again(a[1])})"
        if op in ("before", "from"):
            return f"({op}_counts {a[0]} {again(a[1])})"
        if op == "behind":
            stop = self.stop(a[0])
            if stop:
                return f"(shut_counts u.wider {a[1]} (λ m. {words(stop)[1:-1]}) refl {again(a[0])})"
            return f"(behind_counts {a[1]} {again(a[0])})"
        if op == "alt":
            if self.is_open(a[0]):
                return f"(alt_nested u.wider {self.law(a[1], name)} {self.law(a[2], name)} refl refl refl {again(a[1])} {again(a[2])})"
            return f"(alt_counts (of_kind {self.mode_of(a[0])}) {again(a[1])} {again(a[2])})"
        if op == "opt":
            if self.is_open(a[0]):
                return f"(opt_nested u.wider {self.law(a[1], name)} refl {again(a[1])})"
            return f"(opt_counts (of_kind {self.mode_of(a[0])}) {again(a[1])})"
        if op in ("many", "many_long"):
            assert not self.is_open(a[0]), name
            return f"(repeated_counts (of_kind {self.mode_of(a[0])}) {again(a[1])})"
        if op == "some_of":
            return f"(more_counts (of_kind {self.mode_of(a[0])}) {again(a[1])} {again(a[1])})"
        if op == "list_of":
            return f"(more_counts (of_kind (is {a[0]})) {again(a[1])} (before_counts {a[0]} {again(a[1])}))"
        if op == "only":
            if a[0] == "m.wide":
                return f"(only_counts w.mode.wide (λ o. {strip(again(a[1]))}))"
            assert outer and a[1][0] == "mapped", name
            f, part = a[1][1], a[1][2]
            return f"(form_counts w.mode.room u.wider.room u.wider.grows u.bare u.one_more {depth} {words(f)} {self.node(f)} (λ r. {strip(self.counts(part, name, False))}))"
        if op == "unless":
            return f"(unless_counts (of_kind {words(a[0])}) {again(a[1])})"
        if op == "ahead":
            return f"(ahead_nested u.wider {words(a[0])} {words(a[1])} {self.law(a[4], name)} refl {again(a[3])} {again(a[4])})"
        raise ValueError(e)

    def mode_of(self, c):
        return words(c).replace("m.wide", "w.mode.wide")

    def reference(self, e, outer):
        if not self.g.in_module[e]:
            return f"(plain g.{e})"
        if self.g.type[e] not in DEPTHS:
            self.plain(e)
            return f"{e}-plain"
        self.production(e, outer)
        word = f"{e}-counts" if outer else f"{e}-within"
        at = " at" if self.g.type[e] == "ℕ → Step" else ""
        r = " r" if not outer and self.laws.is_inside(self.g.body[e]) else ""
        return f"({word}{at}{r})" if at or r else word

    def plain(self, name):
        """A production without trees, which doesn't depend on what may nest."""
        if (name, None) in self.done:
            return
        self.done.add((name, None))
        found, todo = [], [name]
        while todo:
            n = todo.pop()
            if n not in found:
                found.append(n)
                todo += self.named(self.body[n])
        opened = " ".join(f"g.{n}" for n in found)
        self.lines.append(f"  {name}-plain : {{bound : ℕ}} → Counts bound (λ x. 0) (g.{name} w.mode w.parts).read (g.{name} (above u.wider) u.parts).read never")
        self.lines.append(f"  unfolding {opened}")
        self.lines.append(f"  {name}-plain = plain (g.{name} w.mode w.parts)")
        self.lines.append("")

    def production(self, name, outer):
        if (name, outer) in self.done:
            return
        self.done.add((name, outer))
        body = self.body[name]
        law = self.counts(body, name, outer)
        word, bound = ("counts", "u.bound") if outer else ("within", "u.within")
        is_inside = not outer and self.laws.is_inside(self.g.body[name])
        premise, argument = ("w.mode.room ≡ true → ", " r") if is_inside else ("", "")
        if self.g.type[name] == "ℕ → Step":
            premise, argument = "(at : ℕ) → " + premise, " at" + argument
        stop = self.stop(name)
        stop = f"(of_kind {words(stop).replace('m.wide', 'w.mode.wide').replace('m.room', 'u.wider.room')})" if stop else "never"
        depth = DEPTHS[self.g.type[name]]
        public = "pub " if name == "module_part" else ""
        self.lines.append(f"  {public}{name}-{word} : {premise}Counts {bound} {depth} (g.{name} w.mode w.parts).read (g.{name} (above u.wider) u.parts).read {stop}")
        self.lines.append(f"  unfolding g.{name} is")
        self.lines.append(f"  {name}-{word}{argument} = {strip_all(law)}")
        self.lines.append("")

    def text(self):
        before = len(self.laws.sets.lines)
        for name in ("expr", "single"):
            self.production(name, True)
        self.production("module_part", False)
        assert len(self.laws.sets.lines) == before
        laws = "\n".join(self.lines)
        nodes = sorted(n for n in self.nodes if f"{n}-depth" in laws)
        depths = sorted({w for v in DEPTHS.values() for w in re.findall(r"\w+_depth", v) if w in laws})
        sets = sorted({s for s in self.laws.sets.names.values() if re.search(rf"\b{s}\b m", laws)})
        used = sorted(set(re.findall(r"\(?\b(\w+-(?:law|inside)) w\b", laws)))
        classes = [c for c in CLASSES if re.search(rf"(?<![\w.]){c}(?![\w-])", laws)]
        head = NESTED.format(nodes=", ".join(f"{n}-depth" for n in nodes), depths=", ".join(depths), laws="\0",
                             used=", ".join(["language", "sets"] + sets + used), classes=", ".join(classes))
        head, tail = head.split("\0")
        lines = [used_only(line, head[head.index("module _"):] + laws + tail) for line in head.split("\n")]
        return "\n".join(line for line in lines if line is not None) + laws + tail


def strip_all(text):
    return text[1:-1] if text.startswith("(") and text.endswith(")") and closes(text) == len(text) - 1 else text


def closes(text):
    depth = 0
    for i, c in enumerate(text):
        depth += {"(": 1, ")": -1}.get(c, 0)
        if depth == 0:
            return i
    return -1


CLASSES = ("is given is_name is_call_name is_type_name is_literal is_lookup_key is_sum_op is_product_op is_compare_op "
           "is_times is_direction is_extreme is_quantifier is_window single_first pair_first argument_first step_first "
           "order_clause_first first_clause_first clause_first flwor_first").split()

NESTED = """-- Written by tools/grammar_laws.py from the productions of specs/Grammar.antt. Change those, and run it again.
-- Where so many forms may nest, each production has exactly the values that are nested no deeper.
use Rattle.std.proofs.Common.{{◌≡◌, ℕ, true, false, refl, arith}}
use Rattle.query_tree.specs.Plain as p
use Rattle.query_tree.specs.Nesting.{{greatest}}
use Rattle.grammar_parts.specs.Tokens.{{never}}
use Rattle.grammar_parts.proofs.Modes.{{named, one_at, only_at, unless_at, mapped_at, alt_at, opt_at, seq_at, many_at}}
use Rattle.grammar_parts.proofs.Levels.{{Ground}}
use Rattle.grammar_parts.proofs.Counts.{{Counts, of_any, mapped_counts, only_counts, unless_counts, alt_counts, opt_counts, seq_counts, form_counts}}
use Rattle.grammar_parts.proofs.Nested.{{Higher, Counting, above, alt_nested, opt_nested, ahead_nested}}
use Rattle.query_grammar.specs.declared.word.Kind.{{Kind}}
use Rattle.query_grammar.specs.declared.word.Kind.TheVariants as k
use Rattle.query_grammar.specs.declared.word.Word.{{Word}}
use Rattle.query_grammar.specs.declared.part.Part.{{Part}}
use Rattle.query_grammar.specs.declared.part.Part.TheVariants as i
use Rattle.query_grammar.specs.Nodes as n
use Rattle.query_grammar.specs.Nodes.{{Tree}}
use Rattle.query_grammar.specs.Classes.{{{classes}}}
use Rattle.query_grammar.specs.Languages.{{of_kind, one, tok}}
use Rattle.query_grammar.specs.Grammar as g
use Rattle.query_grammar.proofs.Depths.{{{depths}, {nodes}, plain, before_counts, from_counts, behind_counts, shut_counts, repeated_counts, more_counts, step_counts}}
use Rattle.query_grammar.proofs.Productions.{{{used}}}

module _ (w : Ground Word Kind Part Tree language sets) (u : Higher tree_depth w) where
{laws}
pub forms-counting : Counting language sets tree_depth g.forms
forms-counting w u i.Expr = expr-counts w u
forms-counting w u i.Single = single-counts w u
"""


def words(e):
    return e if isinstance(e, str) else "(" + " ".join(words(x) for x in e) + ")"


def strip(text):
    return text[1:-1] if text.startswith("(") else text


HEAD = """-- Written by tools/grammar_laws.py from the productions of specs/Grammar.antt. Change those, and run it again.
-- The laws of the productions: each is read as it derives, whatever may nest.
use Rattle.std.proofs.Common.{{◌≡◌, true, false, List, [], ◌∷◌, refl}}
use Rattle.std.specs.Prelude.{{◌&&◌}}
use Rattle.grammar_parts.specs.Tokens.{{Class, never}}
use Rattle.grammar_parts.specs.Levels.{{Mode}}
use Rattle.grammar_parts.proofs.AllKinds.{{kinds_of}}
use Rattle.grammar_parts.proofs.Modes.{{Language, Set, named, one_at, only_at, unless_at, mapped_at, alt_at, opt_at, seq_at, behind_at, long_at, many_at, many_long_at, ahead_at}}
use Rattle.grammar_parts.proofs.Levels.{{Sets, Ground, Law, LawInside, Lawful}}
use Rattle.query_grammar.specs.contracts.word.Kind.{{the_type}}
use Rattle.query_grammar.specs.declared.word.Kind.{{Kind}}
use Rattle.query_grammar.specs.declared.word.Kind.TheVariants as k
use Rattle.query_grammar.specs.declared.word.Word.{{Word}}
use Rattle.query_grammar.specs.declared.part.Part.{{Part}}
use Rattle.query_grammar.specs.declared.part.Part.TheVariants as i
use Rattle.query_grammar.specs.Nodes.{{Tree}}
use Rattle.query_grammar.specs.Classes.{{is, given, is_name, is_call_name, is_type_name, is_literal, is_lookup_key, is_sum_op, is_product_op, is_compare_op, is_times, is_direction, is_extreme, is_quantifier, is_window, single_first, pair_first, argument_first, step_first, order_clause_first, first_clause_first, clause_first, flwor_first}}
use Rattle.query_grammar.specs.Grammar as g

abbrev pub all_kinds : List Kind
all_kinds = {kinds} ∷ []

abbrev pub language : Language Word Kind
language = record {{ kind = λ w. w.kind; kinds = kinds_of the_type tt all_kinds refl refl }}

{sets}
abbrev pub ext_of : Part → Mode → Class Kind
ext_of i.Expr = {expr}
ext_of i.Single = {single}

abbrev pub sets : Sets Kind Part
sets = record {{
  first = λ part wide room. single_first wide room;
  ext = λ part wide. ext_of part (record {{ wide = wide; room = true; room_in = true }});
}}

module _ (w : Ground Word Kind Part Tree language sets) where
{laws}
pub forms-law : Lawful language sets g.forms
forms-law w i.Expr = expr-law w
forms-law w i.Single = single-law w
"""

if __name__ == "__main__":
    w = Writer()
    for n, body in w.g.body.items():
        for m in MODES:
            for clash in w.g.clashes(body, m, n):
                print(m, *clash)
    (TOP / "proofs" / "Productions.antt").write_text(w.text())
    (TOP / "proofs" / "Nested.antt").write_text(NestingWriter(w).text())
