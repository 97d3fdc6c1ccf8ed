"""The shapes of all records, which are specified in a crate below them: which JSON each allows."""
import os
import re

from generator.calls import SHAPES
from generator.records import NUMBERS, OPEN_NAMES, PRESENCES, snake
from generator.specs import default_content
from generator.text import imported, used

# what a shape is made of
SHAPE_WORDS = ["row", "listed", "required", "optional", "defaulted", "nullable", "unless_empty", "text", "truth", "digest_text", "cpu_text",
               "cap_set", "open_name", "named", "list", "map", "key_set", "detail", "free_map"]


def shape_rows(r):
    rows = "rows (\n"
    for i, m in enumerate(r.members):
        presence = PRESENCES[m.presence]
        if m.presence == "D":
            presence = f"(defaulted ({m.absent()[0]}))"
        shape = m.type.shape
        entry = f'row (codes "{m.name}") (Some (codes "{m.second}")) {presence} {shape}' if m.second else f'listed (codes "{m.name}") {presence} {shape}'
        rows += f"    {entry}" + (" (\n" if i < len(r.members) - 1 else "\n    no_rows" + ")" * len(r.members) + "\n")
    return rows


def name_imports(r, rows):
    """Imports of the tables of names, and of how a default is stated."""
    out = ""
    for rust, tables in OPEN_NAMES.values():
        out += imported(f"oci_text.specs.{rust}", [tables] * (rust in r.words()))
    if re.search(r"\bplain\.", rows):
        out += "use Rattle.oci_model.specs.Plain as plain\n"
    if "document" in rows:
        out += imported("oci_model.specs.Plain", ["Plain", "document", "slots"] + used(["empty", "filled"], rows))
    for name in r.enums():
        w = snake(name)
        out += imported(f"{r.book.names[name]}.specs.{name}", [w + "_table"] + used([w + "_name", w + "_default"], rows))
    return out


def shape_spec(r):
    """A record's shape; and its default, where another record's shape names that."""
    rows, default = shape_rows(r), default_content(r) if r.default_is_in_a_shape() else ""
    terms = rows + default
    prelude = ["[]"] * ("[]" in terms) + ["◌∷◌"] * ("∷" in terms) + ["codes"] + ["Some"] * ("Some (codes" in rows) + used(["pos", "false", "true"], terms)
    out = f"-- {r.about}\n" + imported("std.specs.Prelude", prelude) + name_imports(r, terms)
    shapes = ["Shape", "rows", "no_rows"] + used(SHAPE_WORDS, re.sub(r'codes "[^"]*"', "", rows))
    out += imported("oci_model.specs.Shape", shapes) + imported("oci_model.specs.Types", used(list(NUMBERS), rows))
    out += imported("oci_text.specs.Capability", ["capability_table"] * any(m.type.kind == "Caps" for m in r.members))
    for name, _ in r.parts():
        out += imported(f"{SHAPES}.specs.{name}", [snake(name)] + used([f"default_{snake(name)}"], rows))
    return out + f"""
-- the members, in the order in which they are checked
abbrev pub {r.word} : Shape
{r.word} = {rows}{default}"""


def by_hand(folder, records):
    """Shapes that are written by hand: the file, the shape and the shapes that it holds."""
    found = []
    for name in sorted(os.listdir(folder)):
        text = open(os.path.join(folder, name)).read()
        shape = re.search(r"abbrev pub (\w+) : Shape", text)
        if shape and name[:-5] not in {r.name for r in records}:
            held = re.findall(rf"use Rattle\.{SHAPES}\.specs\.\w+\.{{(\w+)", text)
            found.append((name[:-5], shape[1], held, []))
    return found


def well(books, folder):
    """The proofs that each shape is well formed, each after those of the shapes that it holds."""
    records = [r for book in books for r in book.records]
    shapes = by_hand(folder, records) + [(r.name, r.word, [snake(n) for n, _ in r.parts()], sorted(r.default_lemmas())) for r in records]
    by_word = {word: (held, lemmas) for _, word, held, lemmas in shapes}
    order = []

    def visit(word):
        if word not in order:
            for it in by_word[word][0]:
                visit(it)
            order.append(word)

    for word in sorted(by_word):
        visit(word)
    own = {f"default_{r.word}_fits": r.name for r in records if r.default_is_in_a_shape()}
    lemmas = sorted({it for _, found in by_word.values() for it in found})
    out = "-- Each shape is well formed.\n" + imported("oci_model.specs.WellFormed", ["WellFormed"])
    out += imported("oci_model.specs.DefaultMembers", [it for it in lemmas if it not in own])
    out += "".join(imported(f"{SHAPES}.specs.Default{name}", [lemma]) for lemma, name in sorted(own.items()) if lemma in lemmas)
    out += "".join(imported(f"{SHAPES}.specs.{name}", [word]) for name, word, _, _ in sorted(shapes, key=lambda it: it[1]))
    for word in order:
        held, found = by_word[word]
        terms = ", ".join(found + [f"well_{it}" for it in held])
        out += f"\npub well_{word} : WellFormed {word}\nwell_{word} = search{f' ({terms})' if terms else ''}\n"
    return out
