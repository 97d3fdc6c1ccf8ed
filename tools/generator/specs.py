"""A record's specification: its content, its default, what its mutable borrows promise, its equality."""
import re

from generator.builders import PLAIN_TERMS
from generator.convert import same_term, same_terms
from generator.records import OPEN_NAMES, snake
from generator.text import imported, used


def content(r):
    slots = "".join("    " + ("∷ " if i else "") + f"{m.slot()} x.{m.field}\n" for i, m in enumerate(r.members))
    return f"""
-- the content of a document
abbrev pub {r.word}_plain : {r.name} → Plain
{r.word}_plain x = document (slots (
{slots}    ∷ []))
"""


def default_content(r):
    terms = "".join("    " + ("∷ " if i else "") + (f"filled ({r.defaults[m.field][1]})" if m.field in r.defaults else "empty") + "\n" for i, m in enumerate(r.members))
    return f"""
-- the content of the default document
abbrev pub default_{r.word} : Plain
default_{r.word} = document (slots (
{terms}    ∷ []))
"""


def borrows(r):
    """What mutable getters promise."""
    out = ""
    for m in r.members:
        if "m" in m.marks:
            out += f"""
-- what a document becomes after `{m.name}` was borrowed mutably
abbrev pub lends_{m.field} : MutBor {r.name} → MutBor {m.spec()} → Fml
lends_{m.field} x r = Lends the_row {m.row()} x r (λ w. record x.now {{ {m.field} = w }})
"""
    return out


def equality_spec(r):
    """When two documents are equal, of a record whose equality is an `impl` of its own."""
    terms = [(f"option_eq {m.type.eq}" if m.optional else m.type.eq) + f" x.{m.field} y.{m.field}" for m in r.members]
    lines = "\n    && (".join(terms) + ")" * (len(terms) - 1)
    return f"""
-- when two documents are equal
abbrev pub {r.word}_eq : {r.name} → {r.name} → Bool
{r.word}_eq x y =
    {lines}

-- they are equal exactly if their contents are
pub {r.word}_same : Agrees {r.word}_eq {r.word}_plain
{r.word}_same x y = {same_term(r).replace("        ", "    ")}
"""


def std_imports(default, lends, equal):
    """Imports of the standard library."""
    prelude = ["[]", "◌∷◌"] + used(["codes", "pos", "false", "true"], default)
    prelude += [w for w in ("◌&&◌", "◌==◌") if w in equal or w.strip("◌") in equal] + used(["Bool", "bytes_eq", "string_bytes"], equal)
    prelude += used(["Option", "String", "Vec", "Bool"], lends) + [w for w in "ℕℤ" if w in lends]
    out = imported("std.specs.Prelude", prelude)
    for module, word in (("Bool", "beq"), ("Cmp.Lexicographic", "pointwise"), ("Option", "option_eq"), ("Ordering", "int_eq")):
        out += imported(f"std.specs.{module}", used([word], equal))
    if lends:
        out += imported("std.specs.Borrow", ["Lends", "MutBor", "Fml"]) + imported("std.specs.declared.alloc.Global", used(["Global"], lends))
        out += imported("std.specs.BTreeMap", used(["BTreeMap"], lends))
    return out


def plain_imports(r, plain, default):
    """Imports of what contents are made of."""
    out = ""
    for rust, _ in OPEN_NAMES.values():
        out += imported(f"oci_text.specs.{rust}", [f"{snake(rust)}_name"] * (rust in r.words()))
    if re.search(r"\bplain\.", plain + default):
        out += "use Rattle.oci_model.specs.Plain as plain\n"
    bare = re.sub(r"\bplain\.\w+", "", default)
    return out + imported("oci_model.specs.Plain", ["Plain", "document", "slots"] + used(["empty", "filled", "no_plains"], bare))


def enum_imports(r, default, lends):
    """Imports of the closed names that members hold."""
    out = ""
    for name in r.enums():
        w, crate = snake(name), r.book.names[name]
        out += imported(f"{crate}.specs.{name}", [w + "_name"] + used([w + "_default"], default))
        if f"{w}.the_row" in lends:
            out += imported(f"{crate}.specs.declared.{w}.{name}", [name]) + f"use Rattle.{crate}.specs.contracts.{w}.{name} as {w}\n"
    return out


def kind_imports(r, plain, lends, equal):
    """Imports of the model's words, and of those of kinds of members."""
    out = imported("oci_model.specs.Types", list(dict.fromkeys(used(PLAIN_TERMS, plain))))
    kinds = {m.type.kind for m in r.members}
    out += imported("oci_model.specs.Keys", ["keys_plain"] * ("Keys" in kinds))
    out += imported("oci_text.specs.CapabilitySets", ["set_plain"] * ("Caps" in kinds))
    if equal:
        out += imported("oci_model.specs.Same", ["Agrees"] + same_terms(equal))
        out += imported("oci_model.specs.FreeValues", ["free_values_plain", "free_eq"]) + imported("oci_model.specs.SameFree", ["same_free"])
    out += imported("oci_model.specs.Lent", used(["text_row", "option_row", "list_row", "map_row"], lends))
    return out + "use Rattle.std.specs.Borrow as borrow\n" * ("borrow." in lends)


def part_imports(r, default, lends, equal):
    """Imports of the records that members hold."""
    out = ""
    for name, crate in r.parts():
        word = snake(name)
        plain, terms = [f"{word}_plain"], used([f"default_{word}"], default)
        if r.book.default_home(name) == crate:
            plain, terms = plain + terms, []
        out += imported(f"{r.book.default_home(name)}.specs.{name}", terms) + imported(f"{crate}.specs.{name}", plain)
        contracts = f"{crate}.specs.contracts.{word}.{name}"
        if equal:
            out += f"use Rattle.{contracts}PartialEq.TheImpl as {word}\n" + imported(f"{contracts}OciRecord.TheImpl.Laws", [f"same-law as {word}_same"])
        if f"{word}.the_row" in lends:
            out += imported(f"{crate}.specs.declared.{word}.{name}", [name]) + f"use Rattle.{contracts} as {word}\n"
    return out


def spec(r):
    plain, lends = content(r), borrows(r)
    default = default_content(r) if r.whole and not r.default_is_in_a_shape() else ""
    equal = equality_spec(r) if r.own_equality() else ""
    out = f"-- {r.about}\n" + std_imports(default, lends, equal) + plain_imports(r, plain, default) + enum_imports(r, default, lends)
    out += kind_imports(r, plain, lends, equal) + part_imports(r, default, lends, equal)
    for path, terms in r.book.words.items():
        out += imported(path, used(terms, default))
    out += imported(f"{r.book.crate}.specs.declared.{r.word}.{r.name}", [r.name])
    out += imported(f"{r.book.crate}.specs.contracts.{r.word}.{r.name}", ["the_row"] * bool(lends))
    return out + plain + default + lends + equal


def builder_spec(r):
    unset = " ∷ ".join(f'(codes "{f}", is_none b.{f})' for f in r.required)
    return f"""-- The required fields of the builder of `{r.name}`.
use Rattle.std.specs.Prelude.{{ℕ, List, [], ◌∷◌, Option, codes, is_none}}
use Rattle.oci_model.specs.Built.{{first_unset}}
use Rattle.{r.book.crate}.specs.declared.{r.word}.{"builder." * ("builder" in r.long)}{r.name}Builder.{{{r.name}Builder}}

-- the first required field that is not set
abbrev pub {r.word}_unset : {r.name}Builder → Option (List ℕ)
{r.word}_unset b = first_unset ({unset} ∷ [])
"""
