"""The books of each kind of documents; that each place stands in its documents' shape."""
from rule_books.tree import pascal

CRATE = "oci_rule_books"
BOOKS = "Result<Vec<&'static [Rule<'static>]>, AllocError>"
RULES = "flat_map (λ b. map rule_of b.now)"


def variant(kind):
    return pascal(kind)


def defined(model, kinds):
    """The imports of the definitions of the books of these kinds."""
    words = {}
    for it in (book for kind in kinds for book in model.books_of(kind)):
        words.setdefault((model.crate[it.file], pascal(it.file)), []).append(f"{it.word}_rules")
    return "".join(f"use Rattle.{crate}.specs.{file}.{{{', '.join(dict.fromkeys(it))}}}\n" for (crate, file), it in sorted(words.items()))


def kinds_specs(model):
    """The rules of each kind: those of its books."""
    out = "-- The rules of each kind of documents: those of its books.\n"
    out += "use Rattle.std.specs.Prelude.{List, [], ◌++◌}\n"
    out += "use Rattle.oci_schemas.specs.declared.kind.Kind.{Kind}\n"
    out += f"use Rattle.oci_schemas.specs.declared.kind.Kind.TheVariants.{{{', '.join(variant(it) for it in model.kinds)}}}\n"
    out += "use Rattle.oci_rules.specs.Rules.{Rule}\n"
    out += defined(model, model.kinds)
    out += "\nabbrev pub rules_of : Kind → List Rule\n"
    for kind in model.kinds:
        books = model.books_of(kind)
        out += f"rules_of {variant(kind)} = {' ++ ('.join(f'{it.word}_rules' for it in books)} ++ []{')' * (len(books) - 1)}\n"
    return out


def kinds_source(model):
    """The call that returns the books of a kind."""
    used = {}
    for kind in model.kinds:
        for it in model.books_of(kind):
            used[f"crate::{it.word}"] = f"{it.word}_rules"
    out = "//! The books of rules of each kind of documents.\n"
    out += "ghost use Rattle.std.specs.Prelude.{◌≡◌, map, IfOk};\nghost use Rattle.std.specs.List.{flat_map};\n"
    out += "ghost use Rattle.oci_rules.specs.Tables.{rule_of};\n"
    out += f"ghost use Rattle.{CRATE}.specs.Kinds as kinds;\nghost use Rattle.oci_schemas.specs.declared.kind.Kind.TheVariants as kind;\n\n"
    out += "use oci_schemas::Kind;\nuse oci_rules::Rule;\n"
    out += "".join(f"use {module}::{word};\n" for module, word in sorted(used.items()))
    out += "use std::alloc::{AllocError, Global};\n"
    out += "\n/// Returns the rules of a kind of documents, in the order of its books, a few in each slice. Fails if out of memory.\n"
    out += f"pub fn rules_of(kind: Kind, alloc: Global) -> {BOOKS}\n"
    out += f"    ensures {{ IfOk result (λ v. {RULES} v.items ≡ kinds.rules_of kind) }}\n{{\n    match kind {{\n"
    for kind in model.kinds:
        out += f"        Kind::{variant(kind)} => {snake_of(kind)}_books(alloc),\n"
    out += "    }\n}\n"
    for kind in model.kinds:
        calls = ", ".join(f"&{it.word}_rules()" for it in model.books_of(kind))
        out += f"\nfn {snake_of(kind)}_books(alloc: Global) -> {BOOKS}\n"
        out += f"    ensures {{ IfOk result (λ v. {RULES} v.items ≡ kinds.rules_of kind.{variant(kind)}) }}\n{{\n    collected(&[{calls}], alloc)\n}}\n"
    out += f"\nfn collected(books: &[&[&'static [Rule<'static>]]], alloc: Global) -> {BOOKS}\n"
    out += "    ensures { IfOk result (λ v. v.items ≡ flat_map (λ b. b.now) books.now) }\n{\n"
    return out + "    let mut out = Vec::new(alloc);\n    for book in books {\n        out.extend_from_slice(book)?;\n    }\n    Ok(out)\n}\n"


def snake_of(kind):
    return kind.replace("-", "_")


def places(model):
    """That each place of each kind's rules stands in the shape of its documents."""
    out = "-- Each place of the rules of a kind stands in the shape of its documents.\n"
    out += "use Rattle.std.specs.Prelude.{◌≡◌, true, refl}\n"
    out += "use Rattle.oci_schemas.specs.declared.kind.Kind.{Kind}\n"
    out += f"use Rattle.oci_schemas.specs.declared.kind.Kind.TheVariants.{{{', '.join(variant(it) for it in model.kinds)}}}\n"
    out += f"use Rattle.oci_schemas.specs.Kinds.{{shape_of}}\nuse Rattle.{CRATE}.specs.Kinds.{{rules_of}}\nuse Rattle.{CRATE}.specs.Stands.{{stands_in}}\n"
    out += "\npub each_stands : (kind : Kind) → stands_in (shape_of kind) (rules_of kind) ≡ true\n"
    return out + "".join(f"each_stands {variant(kind)} = refl\n" for kind in model.kinds)


def beside(model):
    """The members that the specifications have and the records do not."""
    out = "-- Members that the specifications have and the records do not; anything stands below them.\n"
    out += "use Rattle.std.specs.Prelude.{ℕ, List, [], ◌∷◌, codes}\n\nabbrev pub unlisted : List (List ℕ)\nunlisted =\n"
    return out + "".join(f'    codes "{it}" ∷\n' for it in model.beside) + "    []\n"


def answers(model, kind):
    """The proof for a kind, which is one step a book."""
    books = model.books_of(kind)
    rules = "".join(f"{it.word}_rules ∷ " for it in books) + "[]"
    have = "".join(f"(c.{it.word}_rules.ensures, " for it in books) + "tt" + ")" * len(books)
    out = "use Rattle.std.proofs.Common.{[], ◌∷◌}\n"
    out += f"use Rattle.{CRATE}.proofs.Chains.{{collects}}\n"
    out += defined(model, [kind])
    out += f"use Rattle.{CRATE}.proofs.kinds.{snake_of(kind)}_books.Goals as goal\n\npub returns : goal.returns\nreturns c =\n"
    parts = "".join(f"c.{it.word}_rules.result ∷ " for it in books) + "[]"
    return out + f"    collects c.collected.result (λ v. v.items)\n    ({parts})\n    ({rules})\n    c.collected.ensures\n    {have}\n"


def files(model):
    """All files, by their paths."""
    folder = f"crates/{CRATE}"
    proofs = {f"{folder}/proofs/kinds/{snake_of(kind)}_books/Answers.antt": answers(model, kind) for kind in model.kinds}
    return proofs | {f"{folder}/specs/Kinds.antt": kinds_specs(model), f"{folder}/specs/Beside.antt": beside(model), f"{folder}/src/kinds.rt": kinds_source(model), f"{folder}/proofs/Places.antt": places(model)}
