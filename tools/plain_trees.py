#!/usr/bin/env python3
"""Writes the mechanical part of the crate query_tree from the types of its trees.

The trees of src/ hold boxes and vectors, which say where they lie in memory. A definition speaks of
their plain values. This script reads the types under `#[cycle(ast)]`, which lead back to one another,
and the parts, which are over the type `E` of the expressions that they hold. It writes

- specs/Plain.antt: a plain type for each of them, with a constructor for each variant or struct, and
  the plain value of each tree, made by the generated fold;
- specs/NamedViews.antt, specs/BoundViews.antt: words for the plain values of trees as they were read,
  and of compiled trees;
- specs/Subtrees.antt: the trees that a node holds, and all that stand in a tree, in text order, which
  is that of the fields;
- proofs/Held.antt: that the trees which stand in a tree are those of the trees that it holds;
- proofs/Lists.antt: that the lists in plain trees are lists, there and back;
- proofs/Folds.antt: what a fold gives at a node that is known;
- proofs/Layers.antt: the plain value at each variant, and of an `Expr`, in one ruleset `layers`.

A new variant needs no more than its lines in src/, a case of `nesting` in specs/Nesting.antt and a
run of this script: tools/plain_trees.py
"""
import re
from pathlib import Path

from layout import broken, without_unused

CRATE = Path(__file__).resolve().parent.parent / "crates/query_tree"
HEAD = "-- Written by tools/plain_trees.py from the types of src/. Change those, and run it again.\n"

# The type of src/ that has this plain type; any other is named `Plain` and the type's name.
PLAIN = {"Expr": "Tree", "Kind": "Form"}
# Types that stand for plain values, or are plain.
LEAVES = {"u32": "ℕ", "bool": "Bool", "Str": "List ℕ", "Whole": "ℤ", "Units": "ℤ", "V": "V", "F": "F", "T": "T"}


def read_types():
    """The types of the trees: (name, module, parameters, is an enum, [(variant, [(field, type)])])."""
    types = []
    for path in sorted((CRATE / "src").glob("*.rt")):
        text = re.sub(r"//.*", "", path.read_text())
        for match in re.finditer(r"#\[derive\(Drop\)\]\s*pub (enum|struct) (\w+)<([^>]*)> \{", text):
            parameters = match[3].replace(" ", "").split(",")
            in_knot = text[: match.start()].rstrip().endswith("#[cycle(ast)]")
            if not in_knot and parameters[-1] != "E":
                continue
            body, depth, at = "", 1, match.end()
            while depth:
                depth += {"{": 1, "}": -1}.get(text[at], 0)
                body += text[at] if depth else ""
                at += 1
            if match[1] == "struct":
                variants = [(match[2], read_fields(body))]
            else:
                variants = [(v, read_fields(fields or "")) for v, fields in re.findall(r"(\w+)(?:\s*\{([^}]*)\})?\s*(?:,|$)", body.strip())]
            types.append((match[2], path.stem, parameters, match[1] == "enum", variants))
    return types


def read_fields(body):
    fields, depth, word = [], 0, ""
    for c in body + ",":
        if c == "," and depth == 0:
            if word.strip():
                name, kind = word.replace("pub ", "").split(":", 1)
                fields.append((name.strip(), re.sub(r"\s+", "", kind)))
            word = ""
        else:
            depth += {"<": 1, "(": 1, ">": -1, ")": -1}.get(c, 0)
            word += c
    return fields


EXPR = "Expr<V,F,T>"
TYPES = read_types()
NAMES = [name for name, _, _, _, _ in TYPES]
MODULE = {name: module for name, module, _, _, _ in TYPES}
ENUMS = {name for name, _, _, is_enum, _ in TYPES if is_enum}
VARIANTS = {
    name: [(v, [(f, re.sub(r"\bE\b", EXPR, k)) for f, k in fields]) for v, fields in variants]
    for name, _, _, _, variants in TYPES
}
# the parts, with their parameters before the type of expressions; one that holds another comes later
PARTS = {name: parameters[:-1] for name, _, parameters, _, _ in TYPES if parameters[-1] == "E"}
PARTS = dict(sorted(PARTS.items(), key=lambda p: any(k.split("<")[0] in PARTS for _, fs in VARIANTS[p[0]] for _, k in fs)))


def snake(name):
    return re.sub(r"(?<!^)([A-Z])", r"_\1", name).lower()


def plural(word):
    return word + ("es" if word.endswith(("ch", "s")) else "s")


def plain(name):
    return PLAIN.get(name, "Plain" + name)


def value_of(name):
    """The function from a tree to its plain value."""
    return snake(PLAIN.get(name, name)) + "_of"


def constructor(name, variant):
    word = snake(PLAIN.get(name, name))
    return f"{snake(variant)}_{word}" if name in ENUMS else f"{word}_node"


def list_type(name):
    return plural(plain(name))


def list_of(name):
    return plural(snake(PLAIN.get(name, name))) + "_of"


def listed(name):
    return "listed_" + list_of(name).removesuffix("_of")


def none_of(name):
    return "no_" + plural(snake(PLAIN.get(name, name)))


def more_of(name):
    return "more_" + plural(snake(PLAIN.get(name, name)))


def inner(kind, outer):
    match = re.fullmatch(outer + r"<(.*)>", kind)
    return match and match[1]


def tree(kind):
    """The type of a tree, or of a part, that this field holds."""
    match = re.fullmatch(r"(\w+)<(.*)>", kind)
    return match[1] if match and match[1] in NAMES and kind == rust_type(match[1]) else None


def rust_type(name):
    return f"{name}<{','.join(PARTS[name] + [EXPR])}>" if name in PARTS else f"{name}<V,F,T>"


def part_type(name, held):
    """A part over this type of expressions, as contracts see it."""
    return " ".join([name] + PARTS[name] + [held])


def atom(text):
    return f"({text})" if " " in text else text


def leaf(kind):
    """The plain type of a field that holds no tree."""
    if kind in LEAVES:
        return LEAVES[kind]
    if inner(kind, "Option"):
        return "Option " + atom(leaf(inner(kind, "Option")))
    if inner(kind, "Vec"):
        return "List " + atom(leaf(inner(kind, "Vec")))
    if inner(kind, "Placed"):
        return "Placed " + inner(kind, "Placed")
    if kind.startswith("("):
        return " × ".join(leaf(k) for k in kind[1:-1].split(","))
    return kind


def plain_field(kind):
    """The plain type of a field."""
    if tree(kind):
        return plain(tree(kind)) + " V F T"
    if inner(kind, "Box"):
        return plain_field(inner(kind, "Box"))
    if inner(kind, "Option") and tree(inner(inner(kind, "Option"), "Box") or ""):
        return "MaybeTree V F T"
    if inner(kind, "Vec") and tree(inner(kind, "Vec")):
        return list_type(tree(inner(kind, "Vec"))) + " V F T"
    return leaf(kind)


def declared(kind):
    """The type of a field as contracts see it."""
    if tree(kind) in PARTS:
        return part_type(tree(kind), "(Expr V F T)")
    if tree(kind):
        return tree(kind) + " V F T"
    for outer in ("Box", "Vec"):
        if inner(kind, outer):
            return f"{outer} {atom(declared(inner(kind, outer)))} Global"
    if inner(kind, "Option"):
        return "Option " + atom(declared(inner(kind, "Option")))
    return leaf(kind)


def converted(kind, x, layer):
    """The plain value of the field x; in a layer its trees are plain already."""
    if tree(kind) in PARTS and layer:
        return f"{snake(tree(kind))}_layer {x}"
    if tree(kind):
        return x if layer else f"{value_of(tree(kind))} V F T {x}"
    if inner(kind, "Box"):
        return converted(inner(kind, "Box"), x + ".value", layer)
    if inner(kind, "Option"):
        held = inner(kind, "Option")
        if inner(held, "Box"):
            return f"maybe_tree {x}" if layer else f"maybe_tree_of V F T {x}"
        if inner(held, "Vec"):
            return f"option_map (λ v. v.items) {x}"
        return x
    if inner(kind, "Vec"):
        held = tree(inner(kind, "Vec"))
        if not held:
            return x + ".items"
        if layer and held in PARTS:
            return f"{list_of(held)} (map {snake(held)}_layer {x}.items)"
        if layer:
            return f"{list_of(held)} {x}.items"
        return f"{list_of(held)} V F T (map ({value_of(held)} V F T) {x}.items)"
    return x


# The generated fold takes the enums first, and then the structs, each in the order of their paths.
ORDER = sorted((n for n in NAMES if n not in PARTS), key=lambda name: (name not in ENUMS, MODULE[name], name))
ALL = ORDER + list(PARTS)
LISTS = [n for n in ALL if any(inner(k, "Vec") == rust_type(n) for v in VARIANTS.values() for _, fs in v for _, k in fs)]
CARRIERS = " ".join(f"({plain(n)} V F T)" for n in ORDER)
LAYERS = [snake(n) + "_layer" for n in ORDER]
OTHERS = ["Placed", "CompareOp", "ProductOp", "Quantifier", "SumOp"]
OTHER_MODULES = {"Placed": "names"}


def imports_of_declared(words):
    lines = []
    for name in ORDER:
        lines.append(f"use Rattle.query_tree.specs.declared.{MODULE[name]}.{name}.{{{', '.join(w.format(name) for w in words)}}}")
    for name in list(PARTS) + OTHERS:
        lines.append(f"use Rattle.query_tree.specs.declared.{MODULE.get(name, OTHER_MODULES.get(name, 'operator'))}.{name}.{{{name}}}")
    return lines


def variants_of_parts():
    return [f"use Rattle.query_tree.specs.declared.{MODULE[n]}.{n}.TheVariants as {snake(n)}" for n in PARTS if n in ENUMS]


def write_plain():
    out = [HEAD + "-- Trees as plain values, without where they lie in memory."]
    out.append("use Rattle.std.specs.Prelude.{ℕ, ℤ, Bool, List, [], ◌∷◌, Option, Some, None, option_map, map}")
    out.append("use Rattle.std.specs.declared.alloc.Global.{Global}")
    out.append("use Rattle.std.specs.declared.boxed.Box.{Box}")
    out += imports_of_declared(["{0}", "{0}-F", "fold-{0}"])
    out += variants_of_parts()
    out.append(f"use Rattle.query_tree.specs.declared.{MODULE[ORDER[0]]}.{ORDER[0]}.TheOpen as node")
    out += ["", "mutual"]
    for name in ["Expr"] + [n for n in ALL if n != "Expr"]:
        out.append(f"  pub data {plain(name)} (V F T : Type 0) : Type 0 where")
        for variant, fields in VARIANTS[name]:
            parts = "".join(f"({f} : {plain_field(k)}) → " for f, k in fields)
            out.append(f"    {constructor(name, variant)} : {parts}{plain(name)} V F T")
        out.append("")
        if name in LISTS:
            out.append(f"  pub data {list_type(name)} (V F T : Type 0) : Type 0 where")
            out.append(f"    {none_of(name)} : {list_type(name)} V F T")
            out.append(f"    {more_of(name)} : {plain(name)} V F T → {list_type(name)} V F T → {list_type(name)} V F T")
            out.append("")
    out.append("  pub data MaybeTree (V F T : Type 0) : Type 0 where")
    out.append("    no_tree : MaybeTree V F T")
    out.append("    one_tree : Tree V F T → MaybeTree V F T")
    out += ["", "module _ (V F T : Type 0) where"]
    for name in LISTS:
        out.append(f"  abbrev pub {list_of(name)} : List ({plain(name)} V F T) → {list_type(name)} V F T")
        out.append(f"  {list_of(name)} [] = {none_of(name)}")
        out.append(f"  {list_of(name)} (x ∷ xs) = {more_of(name)} x ({list_of(name)} xs)")
        out.append("")
        out.append(f"  abbrev pub {listed(name)} : {list_type(name)} V F T → List ({plain(name)} V F T)")
        out.append(f"  {listed(name)} {none_of(name)} = []")
        out.append(f"  {listed(name)} ({more_of(name)} x xs) = x ∷ {listed(name)} xs")
        out.append("")
    out.append("  abbrev pub maybe_tree : Option (Box (Tree V F T) Global) → MaybeTree V F T")
    out.append("  maybe_tree None = no_tree")
    out.append("  maybe_tree (Some t) = one_tree t.value")
    for name in PARTS:
        out += part_values(name, f"{snake(name)}_layer", "(Tree V F T)", True)
    for name in ORDER:
        layer = snake(name) + "_layer"
        out.append("")
        out.append(f"  abbrev pub {layer} : {name}-F V F T {CARRIERS} → {plain(name)} V F T")
        for variant, fields in VARIANTS[name]:
            if name in ENUMS:
                pattern = " ".join([f"node.{opened(name, variant)}"] + [f + "'" for f, _ in fields])
                values = [converted(k, f + "'", True) for f, k in fields]
                pattern = f"({pattern})" if fields else pattern
            else:
                pattern = "x"
                values = [converted(k, "x." + f, True) for f, k in fields]
            out.append(f"  {layer} {pattern} = {' '.join([constructor(name, variant)] + [atom(v) for v in values])}")
    for name in ORDER:
        out.append("")
        out.append(f"  unfoldable pub {value_of(name)} : {name} V F T → {plain(name)} V F T")
        out.append(f"  {value_of(name)} = fold-{name} V F T {CARRIERS} {' '.join(LAYERS)}")
    out.append("")
    out.append("  abbrev pub maybe_tree_of : Option (Box (Expr V F T) Global) → MaybeTree V F T")
    out.append("  maybe_tree_of None = no_tree")
    out.append("  maybe_tree_of (Some e) = one_tree (tree_of e.value)")
    for name in PARTS:
        out += part_values(name, value_of(name), "(Expr V F T)", False)
    (CRATE / "specs/Plain.antt").write_text(broken(without_unused("\n".join(out) + "\n")))


def part_values(name, of, held, layer):
    """The plain value of a part over trees that are plain already, or are not."""
    out = ["", f"  abbrev pub {of} : {part_type(name, held)} → {plain(name)} V F T"]
    for variant, fields in VARIANTS[name]:
        pattern, x = "x", "x.{}"
        if name in ENUMS:
            pattern, x = " ".join([f"{snake(name)}.{variant}"] + [f + "'" for f, _ in fields]), "{}'"
        values = [converted(k, x.format(f), layer) for f, k in fields]
        values = [atom(re.sub(r"(\w+_of) V F T", r"\1", v).replace("(tree_of)", "tree_of")) for v in values]
        out.append(f"  {of} {atom(pattern)} = {' '.join([constructor(name, variant)] + values)}")
    return out


def opened(name, variant):
    """A variant's name where one layer is opened: two types with one variant of a name say whose it is."""
    once = sum(variant == v for n in ENUMS if n not in PARTS for v, _ in VARIANTS[n]) == 1
    return variant if once else f"{name}::{variant}"


def is_record(fields):
    """Whether contracts see the struct as a record: it holds trees by value alone."""
    return not any(k.startswith(("Vec<", "Box<", "Option<")) and "<V,F,T>" in k for _, k in fields)


# Views whose usual word stands for something else: a pair with a name as its key, a compiled query.
VIEWS = {"named_pair": "source_pair", "named_trees": "named_tree_list", "bound_trees": "bound_tree_list"}
NAMED = {"V": "(List ℕ)", "F": "(List ℕ)", "T": "TypeName"}
BOUND = {"V": "Slot", "F": "Target", "T": "SeqType"}


def write_views(prefix, over, title, imports, modules):
    """Words for the plain values over these types: of a tree, of each part, of each list of parts."""
    out = [HEAD + title]
    out.append("use Rattle.std.specs.Prelude.{ℕ, List, map, Option}")
    out.append("use Rattle.std.specs.declared.alloc.Global.{Global}")
    out.append("use Rattle.std.specs.declared.boxed.Box.{Box}")
    out += imports
    out += imports_of_declared(["{0}"])
    out += [f"use Rattle.query_tree.specs.declared.module.{name}.{{{name}}}" for name in modules]
    out.append("use Rattle.query_tree.specs.Plain as p")
    plains = [plain(n) for n in ALL] + [list_type(n) for n in LISTS] + ["MaybeTree"]
    out.append(f"use Rattle.query_tree.specs.Plain.{{{', '.join(plains)}}}")
    out.append("use Rattle.query_tree.specs.Modules as modules")
    out.append(f"use Rattle.query_tree.specs.Modules.{{{', '.join('Plain' + name for name in modules)}}}")
    types = " ".join(over.values())
    held = f"(Expr {types})"

    def view(word, of, to, argument, value):
        name = VIEWS.get(f"{prefix}_{word}", f"{prefix}_{word}")
        out.extend(["", f"abbrev pub {name} : {of} → {to}", f"{' '.join([name] + argument)} = {value}"])

    if prefix == "named":
        out += ["", "abbrev pub NamedTree : Type 0", f"NamedTree = Tree {types}"]
        out += ["", "abbrev pub NamedQuery : Type 0", f"NamedQuery = PlainModule {types}"]
    for name in ["Expr"] + [n for n in ALL if n != "Expr"]:
        word, of = snake(PLAIN.get(name, name)), f"p.{value_of(name)} {types}"
        tree_type = " ".join([name] + [over[t] for t in PARTS[name]] + [held]) if name in PARTS else f"{name} {types}"
        to = f"{prefix.capitalize()}Tree" if name == "Expr" else f"{plain(name)} {types}"
        view(word, tree_type, to, [], of)
        if name in LISTS:
            view(plural(word), f"List ({tree_type})", f"{list_type(name)} {types}", ["xs"], f"p.{list_of(name)} {types} (map ({of}) xs)")
    view("content", f"Option (Box {held} Global)", f"MaybeTree {types}", [], f"p.maybe_tree_of {types}")
    for name, word in modules.items():
        to = "NamedQuery" if name == "Module" else f"Plain{name} {types}"
        view(word, f"{name} {types}", to, [], f"modules.{snake(name)}_of {types}")
    file = prefix.capitalize() + "Views.antt"
    (CRATE / "specs" / file).write_text(broken(without_unused("\n".join(out) + "\n")))


def write_named_views():
    imports = ["use Rattle.query_tree.specs.declared.names.TypeName.{TypeName}"]
    modules = {"Variable": "variable", "Function": "function", "Module": "query"}
    write_views("named", NAMED, "-- Trees as they were read, as plain values.", imports, modules)


def write_bound_views():
    imports = [f"use Rattle.query_tree.specs.declared.bound.{name}.{{{name}}}" for name in ["Slot", "Target"]]
    imports.append("use Rattle.seq_types.specs.declared.types.SeqType.{SeqType}")
    imports.append("use Rattle.query_tree.specs.Bound.{BoundTree}")
    modules = {"Variable": "variable", "Function": "function"}
    write_views("bound", BOUND, "-- Compiled trees as plain values; that of a whole query stands in Compiled.antt.", imports, modules)


GENERIC = [f"A{i}" for i in range(len(ORDER))]
STEPS = [f"step{i}" for i in range(len(ORDER))]
TREES = " ".join(f"({n} V F T)" for n in ORDER)


def write_lists():
    """The lists of the plain mirror are lists: there and back, and back and there."""
    out = [HEAD + "-- The lists of plain trees are lists. For other crates too."]
    out.append("use Rattle.std.proofs.Common.{◌≡◌, List, [], ◌∷◌, refl, ap}")
    words = [w for name in LISTS
             for w in (plain(name), list_type(name), none_of(name), more_of(name), list_of(name), listed(name))]
    out.append(f"use Rattle.query_tree.specs.Plain.{{{', '.join(dict.fromkeys(words))}}}")
    out += ["", "module _ (V F T : Type 0) where"]
    rules = []
    for name in LISTS:
        there, back = listed(name) + "-there", listed(name) + "-back"
        rules += [there, back]
        of, to = f"{list_of(name)} V F T", f"{listed(name)} V F T"
        out.append(f"  pub {there} : (xs : List ({plain(name)} V F T)) → {to} ({of} xs) ≡ xs")
        out.append(f"  {there} [] = refl")
        out.append(f"  {there} (x ∷ xs) = ap (λ ys. x ∷ ys) ({there} xs)")
        out.append("")
        out.append(f"  pub {back} : (xs : {list_type(name)} V F T) → {of} ({to} xs) ≡ xs")
        out.append(f"  {back} {none_of(name)} = refl")
        out.append(f"  {back} ({more_of(name)} x xs) = ap ({more_of(name)} x) ({back} xs)")
        out.append("")
    out.append(f"pub ruleset lists = ({', '.join(rules)})")
    (CRATE / "proofs/Lists.antt").write_text(without_unused("\n".join(out) + "\n"))


def write_folds():
    types, steps = " ".join(GENERIC), " ".join(STEPS)
    out = [HEAD + "-- A fold at a node that is known, for any steps. For other crates too."]
    out.append("use Rattle.std.proofs.Common.{◌≡◌, ap, ◌∙◌}")
    for name in ORDER:
        more = f", map-{name}, out-{name}, fold_out-{name}" if name in ENUMS else ""
        out.append(f"use Rattle.query_tree.specs.declared.{MODULE[name]}.{name}.{{{name}, {name}-F, fold-{name}{more}}}")
    params = " ".join(f"({x} : {n}-F V F T {types} → {a})" for x, n, a in zip(STEPS, ORDER, GENERIC))
    out += ["", f"module _ (V F T {types} : Type 0) {params} where"]
    folds = " ".join(f"(fold-{n} V F T {types} {steps})" for n in ORDER)
    for name in ORDER:
        if name not in ENUMS:
            continue
        word, step = snake(name), STEPS[ORDER.index(name)]
        mapped = f"{step} (map-{name} V F T {TREES} {types} {folds} "
        out.append(f"  pub {word}_fold : (k : {name} V F T) (o : {name}-F V F T {TREES}) → out-{name} V F T k ≡ o → fold-{name} V F T {types} {steps} k ≡ {mapped}o)")
        out.append(f"  {word}_fold k o h = fold_out-{name} V F T {types} {steps} k ∙ ap (λ (x : {name}-F V F T {TREES}). {mapped}x)) h")
        out.append("")
    (CRATE / "proofs/Folds.antt").write_text(without_unused("\n".join(out).rstrip() + "\n"))


def one_map(made, fields):
    """The step from two maps over a list of parts to one."""
    at = [i for i, (_, k) in enumerate(fields) if tree(inner(k, "Vec") or "") in PARTS]
    if not at:
        return ""
    name = tree(inner(fields[at[0]][1], "Vec"))
    values = [atom(converted(k, f + "'", False)) for f, k in fields]
    values[at[0]] = f"({list_of(name)} V F T xs)"
    field = fields[at[0]][0] + "'.items"
    layer, of = f"({snake(name)}_layer V F T)", f"({value_of(name)} V F T)"
    return f" ∙ ap (λ xs. {' '.join([made] + values)}) (map_same _ {layer} {of} {same_part(name)} {field})"


def same_part(name):
    """That a part over plain trees has the plain value of the part."""
    if name not in ENUMS:
        return "(λ x. refl)"
    cases = " ".join(f"(λ {' '.join(x for x, _ in variables)}. refl)" for _, variables in patterns(name, "'"))
    return f"({snake(name)}_same _ {cases})"


def patterns(name, tick):
    """The patterns of a part, down to the parts in it, each with its variables and their types."""
    found = []
    for variant, fields in VARIANTS[name]:
        rows = [(f"{snake(name)}.{variant}", [])]
        for f, k in fields:
            if tree(k) in PARTS and tree(k) in ENUMS:
                inside = [(f"({p})", variables) for p, variables in patterns(tree(k), tick + "'")]
            else:
                inside = [(f + tick, [(f + tick, declared(k))])]
            rows = [(row + " " + p, variables + more) for row, variables in rows for p, more in inside]
        found += rows
    return found


def write_same(name):
    """A part that is moved to plain trees has the same plain value, where it does in each case."""
    layer, of, rows = f"{snake(name)}_layer V F T", f"{value_of(name)} V F T", patterns(name, "'")
    moved = f"(move : {part_type(name, '(Expr V F T)')} → {part_type(name, '(Tree V F T)')})"
    cases = "".join(f"({''.join(f'({x} : {t}) → ' for x, t in variables)}{layer} (move ({p})) ≡ {of} ({p})) → " for p, variables in rows)
    out = [f"  {snake(name)}_same : {moved} → {cases}(x : {part_type(name, '(Expr V F T)')}) → {layer} (move x) ≡ {of} x"]
    names = " ".join(f"c{i}" for i in range(len(rows)))
    for i, (p, variables) in enumerate(rows):
        out.append(f"  {snake(name)}_same move {names} ({p}) = {' '.join([f'c{i}'] + [x for x, _ in variables])}")
    return out + [""]


def write_layers():
    values = " ".join(dict.fromkeys(value_of(n) for n in ORDER))
    steps = " ".join(f"({x} V F T)" for x in LAYERS)
    lists = [list_of(n) for n in LISTS]
    made = [constructor(n, v) for n in ORDER for v, _ in VARIANTS[n]]
    parts = [snake(n) + "_layer" for n in PARTS] + [value_of(n) for n in PARTS]
    out = [HEAD + "-- The plain value of a tree, at each kind of node. For other crates too."]
    out.append("use Rattle.std.proofs.Common.{◌≡◌, ℕ, ℤ, Bool, List, Option, Some, None, option_map, map, refl, ap, ◌∙◌}")
    out.append("use Rattle.std.specs.declared.alloc.Global.{Global}")
    out.append("use Rattle.std.specs.declared.boxed.Box.{Box}")
    out.append("use Rattle.std.specs.Prelude.{Vec}")
    for name in ORDER:
        words = [name] if name in ENUMS else [name, f"roll-{name}", f"fold_out-{name}", f"fold-roll-{name}"]
        if name not in ENUMS and not is_record(VARIANTS[name][0][1]):
            words.append(f"out-{name}")
        out.append(f"use Rattle.query_tree.specs.declared.{MODULE[name]}.{name}.{{{', '.join(words)}}}")
        if name in ENUMS:
            out.append(f"use Rattle.query_tree.specs.declared.{MODULE[name]}.{name}.TheVariants as {snake(name)}")
    for name in list(PARTS) + OTHERS:
        out.append(f"use Rattle.query_tree.specs.declared.{MODULE.get(name, OTHER_MODULES.get(name, 'operator'))}.{name}.{{{name}}}")
    plains = [plain(n) for n in ORDER]
    out.append(f"use Rattle.query_tree.specs.Plain.{{{', '.join(plains + lists + made + LAYERS + parts + values.split() + ['maybe_tree_of'])}}}")
    out += variants_of_parts()
    out.append("use Rattle.query_tree.proofs.Maps.{map_same}")
    out.append(f"use Rattle.query_tree.proofs.Folds.{{{', '.join(snake(n) + '_fold' for n in ORDER if n in ENUMS)}}}")
    out += ["", "module _ (V F T : Type 0) where"]
    rules = []

    def lemma(name, arguments, left, right, proof):
        rules.append(name)
        premises = "".join(f"({x} : {t}) " for x, t in arguments)
        out.append(f"  pub {name} : {premises + '→ ' if premises else ''}{left} ≡ {right}")
        out.append(f"  unfolding {values}")
        # a tree that may be absent is known in each case
        known = [x for x, t in arguments if t == "Option (Box (Expr V F T) Global)"]
        for case in ["None", "(Some e)"] if known else [""]:
            words = [case if x in known else x for x, _ in arguments]
            body = proof
            for x in known:
                body = re.sub(rf"(?<!\w){x}", case, body)
            out.append(f"  {' '.join([name] + words)} = {body}")
        out.append("")

    for name in PARTS:
        if name in ENUMS and name in LISTS:
            out += write_same(name)
    for name in ORDER:
        of, word = value_of(name), snake(name)
        for variant, fields in VARIANTS[name]:
            made = constructor(name, variant)
            if name in ENUMS:
                arguments = [(f + "'", declared(k)) for f, k in fields]
                node = " ".join([f"{word}.{variant}"] + [x for x, _ in arguments])
                right = " ".join([made] + [atom(converted(k, f + "'", False)) for f, k in fields])
                outs = " ".join([f"{word}.outs-{variant}"] + [x for x, _ in arguments])
                proof = f"{word}_fold V F T {CARRIERS} {steps} {atom(node)} _ {atom(outs)}"
                lemma(f"{of}-{variant}", arguments, f"{of} V F T {atom(node)}", right, proof + one_map(made, fields))
            else:
                whole = "x" if is_record(fields) else f"(out-{name} V F T x)"
                right = " ".join([made] + [atom(converted(k, f"{whole}.{f}", False)) for f, k in fields])
                lemma(f"{of}-out", [("x", f"{name} V F T")], f"{of} V F T x", right, f"fold_out-{name} V F T {CARRIERS} {steps} x")
                arguments = [(f + "'", declared(k)) for f, k in fields]
                node = "record { " + "; ".join(f"{f} = {f}'" for f, _ in fields) + " }"
                right = " ".join([made] + [atom(converted(k, f + "'", False)) for f, k in fields])
                lemma(f"{of}-made", arguments, f"{of} V F T (roll-{name} V F T ({node}))", right, f"fold-roll-{name} V F T {CARRIERS} {steps} ({node})")
    out.append(f"pub ruleset layers = ({', '.join(rules)})")
    (CRATE / "proofs/Layers.antt").write_text(without_unused("\n".join(out) + "\n"))


def word(name):
    return snake(PLAIN.get(name, name))


def tree_parts(fields):
    """The fields that hold trees: (field, whether it is itself a tree, the word of its type)."""
    out = []
    for field, kind in fields:
        held = tree(kind) or tree(inner(kind, "Box") or "")
        if held:
            out.append((field, held == "Expr", word(held)))
        elif inner(kind, "Vec") and tree(inner(kind, "Vec")):
            out.append((field, False, plural(word(tree(inner(kind, "Vec"))))))
        elif inner(kind, "Option") and tree(inner(inner(kind, "Option"), "Box") or ""):
            out.append((field, False, "content"))
    return out


def shown(name):
    """The pattern of each variant of a type, with its fields that hold trees."""
    for variant, fields in VARIANTS[name]:
        names = [plain_name(f, k) for f, k in fields]
        pattern = " ".join([f"p.{constructor(name, variant)}"] + names)
        yield (f"({pattern})" if fields else pattern), tree_parts(fields)


# A field that is named by a word of antt, or that would hide one.
RENAMED = {"of": "t", "to": "t", "at": "position"}


def plain_name(field, kind):
    return RENAMED.get(field, field)


def children_of(parts):
    """The trees of these fields, in order."""
    out = ""
    for field, is_tree, what in reversed(parts):
        if is_tree:
            out = f"{field} ∷ {out or '[]'}"
        else:
            here = f"{what}_children {field}"
            out = f"{here} ++ {out}" if out else here
    return out or "[]"


def subtrees_of(parts):
    return " ++ ".join(f"subtrees {f}" if t else f"{w}_subtrees {f}" for f, t, w in parts) or "[]"


def held_by(parts):
    """The proof that the trees which stand in these fields are those of the trees that they hold."""
    proof = ""
    for field, is_tree, what in parts:
        here = f"one {field}" if is_tree else f"{what}-held {field}"
        proof = f"both {atom(proof)} {atom(here)}" if proof else here
    return proof or "none"


# The types of the trees, one that is used first.
NODES = list(PARTS) + ["Clause", "Kind"]


def write_subtrees():
    out = [HEAD + "-- The trees that a node holds, and all trees that stand in a tree, in text order. A tree stands"]
    out.append("-- before those in it.")
    out.append("use Rattle.std.specs.Prelude.{List, [], ◌∷◌, ◌++◌}")
    out.append("use Rattle.query_tree.specs.Plain as p")
    plains = [plain(n) for n in ["Expr"] + NODES] + [list_type(n) for n in LISTS] + ["MaybeTree"]
    out.append(f"use Rattle.query_tree.specs.Plain.{{{', '.join(plains)}}}")

    def define(head, what, type_of, cases, before="\n"):
        out.append(f"{before}{head}{what} : {{V F T : Type 0}} → {type_of} V F T → List (Tree V F T)")
        indent = " " * (len(head) - len(head.lstrip()))
        out.extend(f"{indent}{what} {pattern} = {value}" for pattern, value in cases)

    def define_list(head, name, of, one):
        what = f"{plural(word(name))}_{of}"
        define(head, what, list_type(name), [(f"p.{none_of(name)}", "[]"), (f"(p.{more_of(name)} x xs)", f"{one} {what} xs")])

    head = "abbrev pub "
    define(head, "content_children", "MaybeTree", [("p.no_tree", "[]"), ("(p.one_tree t)", "t ∷ []")])
    define_list(head, "Expr", "children", "x ∷")
    for name in NODES:
        define(head, f"{word(name)}_children", plain(name), [(p, children_of(parts)) for p, parts in shown(name)])
        if name in LISTS:
            define_list(head, name, "children", f"{word(name)}_children x ++")
    out += ["", "-- the trees that a tree holds"]
    define(head, "children", "Tree", [("(p.tree_node place kind)", "form_children kind")], "")
    out += ["", "abbrev mutual", "  -- a tree, and the trees in it"]
    head = "  pub "
    define(head, "subtrees", "Tree", [("(p.tree_node place kind)", "p.tree_node place kind ∷ form_subtrees kind")], "")
    for name in reversed(NODES):
        define(head, f"{word(name)}_subtrees", plain(name), [(p, subtrees_of(parts)) for p, parts in shown(name)])
        if name in LISTS:
            define_list(head, name, "subtrees", f"{word(name)}_subtrees x ++")
    define_list(head, "Expr", "subtrees", "subtrees x ++")
    define(head, "content_subtrees", "MaybeTree", [("p.no_tree", "[]"), ("(p.one_tree t)", "subtrees t")])
    (CRATE / "specs/Subtrees.antt").write_text(broken("\n".join(out) + "\n"))


def write_held():
    """That the trees in a node are those of the trees that it holds."""
    out = [HEAD + "-- The trees in a node are those of the trees that it holds. For other crates too."]
    out.append("use Rattle.std.proofs.Common.{◌≡◌, List, [], ◌∷◌, ◌++◌, map, refl, sym, ap, ◌∙◌}")
    out.append("use Rattle.std.specs.List.{flat_map}")
    out.append("use Rattle.query_tree.specs.declared.expr.Expr.{Expr}")
    out += [f"use Rattle.query_tree.specs.declared.{MODULE[n]}.{n}.{{{n}}}" for n in LISTS if n != "Expr"]
    out.append("use Rattle.std.proofs.lemmas.List.Concat.{flat_map-append}")
    out.append("use Rattle.std.proofs.lemmas.List.{append-nil}")
    out.append("use Rattle.query_tree.specs.Plain as p")
    words = [word(n) for n in NODES] + [plural(word(n)) for n in LISTS] + ["content"]
    plains = [plain(n) for n in ["Expr"] + NODES] + [list_type(n) for n in LISTS] + ["MaybeTree"]
    out.append(f"use Rattle.query_tree.specs.Plain.{{{', '.join(plains)}}}")
    names = ["children", "subtrees"] + [f"{w}_{of}" for w in words for of in ("children", "subtrees")]
    out.append(f"use Rattle.query_tree.specs.Subtrees.{{{', '.join(names)}}}")
    out.append("")
    out.append("-- these trees are those in the trees that are held")
    out.append("pub record IsHeld (V F T : Type 0) (inside held : List (Tree V F T)) : Type 0 where")
    out.append("  pub same : inside ≡ flat_map subtrees held")
    out += ["", "module _ {V F T : Type 0} where"]
    out.append("  none : IsHeld V F T [] []")
    out.append("  none = record { same = refl }")
    out.append("")
    out.append("  one : (t : Tree V F T) → IsHeld V F T (subtrees t) (t ∷ [])")
    out.append("  one t = record { same = sym (append-nil (subtrees t)) }")
    out.append("")
    out.append("  both : {us vs xs ys : List (Tree V F T)} → IsHeld V F T us xs → IsHeld V F T vs ys → IsHeld V F T (us ++ vs) (xs ++ ys)")
    out.append("  both {us} {vs} {xs} {ys} d e = record { same = ap (λ zs. zs ++ vs) d.same ∙ ap (λ zs. flat_map subtrees xs ++ zs) e.same ∙ sym (flat_map-append subtrees xs ys) }")

    def prove(what, type_of, cases):
        out.append("")
        out.append(f"  pub {what}-held : (x : {type_of} V F T) → IsHeld V F T ({what}_subtrees x) ({what}_children x)")
        out.extend(f"  {what}-held {pattern} = {value}" for pattern, value in cases)

    def prove_list(name, one):
        what = plural(word(name))
        prove(what, list_type(name), [(f"p.{none_of(name)}", "none"), (f"(p.{more_of(name)} x xs)", f"both ({one} x) ({what}-held xs)")])

    prove("content", "MaybeTree", [("p.no_tree", "none"), ("(p.one_tree t)", "one t")])
    prove_list("Expr", "one")
    for name in NODES:
        prove(word(name), plain(name), [(p, held_by(parts)) for p, parts in shown(name)])
        if name in LISTS:
            prove_list(name, f"{word(name)}-held")
    rules = []
    for name in LISTS:
        lists, of = plural(word(name)), f"p.{value_of(name)} V F T"
        item = declared(rust_type(name))
        held = "p.tree_of V F T x ∷ []" if name == "Expr" else f"{word(name)}_children ({of} x)"
        more = f"p.tree_of V F T x ∷ ys" if name == "Expr" else f"{held} ++ ys"
        rules.append(f"{lists}-listed")
        out.append("")
        out.append(f"  pub {lists}-listed : (xs : List ({item})) → flat_map (λ (x : {item}). {held}) xs ≡ {lists}_children (p.{list_of(name)} V F T (map ({of}) xs))")
        out.append(f"  {lists}-listed [] = refl")
        out.append(f"  {lists}-listed (x ∷ xs) = ap (λ ys. {more}) ({lists}-listed xs)")
    out.append("")
    out.append("  pub tree-held : (t : Tree V F T) → subtrees t ≡ t ∷ flat_map subtrees (children t)")
    out.append("  tree-held (p.tree_node place kind) = ap (λ ts. p.tree_node place kind ∷ ts) (form-held kind).same")
    out += ["", f"pub ruleset listed = ({', '.join(rules)})"]
    (CRATE / "proofs/Held.antt").write_text(without_unused("\n".join(out) + "\n"))


def main():
    write_plain()
    write_named_views()
    write_bound_views()
    write_subtrees()
    write_held()
    write_lists()
    write_folds()
    write_layers()


main()
