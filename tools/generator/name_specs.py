"""A closed name's specification: its texts and numbers, and lemmas about them."""


def head(n):
    more = "◌++◌, " if n.refusal else ""
    return f"""-- {n.title}
use Rattle.std.specs.Prelude.{{◌≡◌, ◌↔◌, ℕ, List, [], ◌∷◌, {more}true, Some, codes, map, refl}}
use denote.Enum.Bare.{{sameb}}
use Rattle.oci_model.specs.Variants.{{variant_of, told_by_name}}
use Rattle.{n.crate}.specs.contracts.{n.word}.{n.name}.{{the_type}}
use Rattle.{n.crate}.specs.declared.{n.word}.{n.name}.{{{n.name}}}
use Rattle.{n.crate}.specs.declared.{n.word}.{n.name}.TheVariants.{{{', '.join(v.name for v in n.variants)}}}
"""


def by_variant(n, about, word, kind, of):
    """A function by its value for each variant."""
    return f"\n-- {about}\nabbrev pub {word} : {n.name} → {kind}\n" + "".join(f"{word} {v.name} = {of(v)}\n" for v in n.variants)


def texts(n):
    """Its texts and numbers."""
    w = n.word
    out = by_variant(n, "the variants and their JSON strings", f"{w}_name", "List ℕ", lambda v: f'codes "{v.text}"')
    if n.shows():
        out += by_variant(n, "the variants and their displayed texts", f"{w}_shown", "List ℕ", lambda v: f'codes "{v.shown}"')
    if n.refusal:
        before, after = n.refusal
        out += f'\n-- the error for a text that is no variant\'s\nabbrev pub {w}_unknown : List ℕ → List ℕ\n{w}_unknown text = codes "{before} " ++ (text ++ codes "{after}")\n'
    if n.number:
        out += by_variant(n, "the variants and their numbers", f"{w}_number", "ℕ", lambda v: int(v.number, 0))
    return out


def spec(n):
    w, name, of, default = n.word, n.name, n.variants, n.default()
    out = head(n) + texts(n) + f"""
-- all variants, and their JSON strings
abbrev pub all_{w} : List {name}
all_{w} = {' ∷ '.join(v.name for v in of)} ∷ []

abbrev pub {w}_table : List (List ℕ)
{w}_table = map {w}_name all_{w}
"""
    if default:
        out += f"\n-- the default\nabbrev pub {w}_default : {name}\n{w}_default = {default.name}\n"
    return out + f"""
-- a JSON string leads back to its variant
pub {w}_back : (x : {name}) → variant_of {w}_name all_{w} ({w}_name x) ≡ Some x
""" + "".join(f"{w}_back {v.name} = refl\n" for v in of) + f"""
-- variants are equal exactly if their JSON strings are
pub {w}_same : (x y : {name}) → (sameb the_type x y ≡ true) ↔ ({w}_name x ≡ {w}_name y)
{w}_same = told_by_name the_type tt {w}_name all_{w} {w}_back
"""


def unspelled(n):
    """The lemma by which a text that none displays, and that is no text of the table, is that of none."""
    w, name = n.word, n.name
    apart = n.apart()
    cases = ""
    for v in n.variants:
        other = f"{v.name.lower()} (sym e)" if v in apart else f"none ({w}_name {v.name}) (is {v.name}) (sym e)"
        cases += f"{w}_apart t none {' '.join(a.name.lower() for a in apart)} {v.name} = (λ e. none ({w}_name {v.name}) (is {v.name}) (sym e), λ e. {other})\n"
    return f"""-- A text that is in none of the tables is no variant's.
use Rattle.std.proofs.Common.{{◌≡◌, ℕ, List, Option, Some, None, codes, sym}}
use Rattle.std.specs.Prelude.{{IsTrue, IfNone}}
use Rattle.oci_base.specs.Names.{{is_listed}}
use Rattle.oci_model.specs.Variants.{{listed}}
use Rattle.{n.crate}.specs.{name}.{{{w}_name, {w}_shown, {w}_table, all_{w}, {w}_back}}
use Rattle.{n.crate}.specs.declared.{w}.{name}.{{{name}}}
use Rattle.{n.crate}.specs.declared.{w}.{name}.TheVariants.{{{', '.join(v.name for v in n.variants)}}}

is : (x : {name}) → IsTrue (is_listed {w}_table ({w}_name x))
is = listed {w}_name all_{w} {w}_back

{w}_apart : (t : List ℕ) → ((n : List ℕ) → IsTrue (is_listed {w}_table n) → ¬ (t ≡ n)){''.join(f' → ¬ (t ≡ codes "{v.shown}")' for v in apart)}
    → (x : {name}) → ¬ ({w}_name x ≡ t) × ¬ ({w}_shown x ≡ t)
{cases}
-- what a search of the table did not find
pub {w}_other : (found : Option {name}) (t : List ℕ) → IfNone found ((n : List ℕ) → IsTrue (is_listed {w}_table n) → ¬ (t ≡ n)){''.join(f' → ¬ (t ≡ codes "{v.shown}")' for v in apart)}
    → IfNone found ((x : {name}) → ¬ ({w}_name x ≡ t) × ¬ ({w}_shown x ≡ t))
{w}_other None t none {' '.join(a.name.lower() for a in apart)} = {w}_apart t none {' '.join(a.name.lower() for a in apart)}
{w}_other (Some x) t none {' '.join(a.name.lower() for a in apart)} = tt
"""


def shown(n):
    """The lemmas by which displayed texts and JSON strings are told apart."""
    w, name = n.word, n.name
    apart = n.apart()
    named, unnamed = "", ""
    for v in n.variants:
        named += f"{w}_named {v.name} t e {' '.join(a.name.lower() for a in apart)} = {f'absurd ({v.name.lower()} (sym e))' if v in apart else 'e'}\n"
        unnamed += f"{w}_unnamed t none {' '.join(a.name.lower() for a in apart)} {v.name} e = {f'{v.name.lower()} (sym e)' if v in apart else f'none {v.name} e'}\n"
    texts = "".join(f' → (t ≡ codes "{v.text}" → ⊥)' for v in apart)
    displayed = "".join(f' → (t ≡ codes "{v.shown}" → ⊥)' for v in apart)
    return f"""-- Which displayed texts are JSON strings of the same variant.
use Rattle.std.proofs.Common.{{◌≡◌, ℕ, List, codes, sym}}
use Rattle.{n.crate}.specs.{name}.{{{w}_name, {w}_shown}}
use Rattle.{n.crate}.specs.declared.{w}.{name}.{{{name}}}
use Rattle.{n.crate}.specs.declared.{w}.{name}.TheVariants.{{{', '.join(v.name for v in n.variants)}}}

-- a JSON string is displayed as it is, but for those that are displayed otherwise
pub {w}_named : (x : {name}) (t : List ℕ) → {w}_name x ≡ t{texts} → {w}_shown x ≡ t
{named}
-- a text that is no JSON string of a variant is not displayed, but for those that are displayed otherwise
pub {w}_unnamed : (t : List ℕ) → ((x : {name}) → {w}_name x ≡ t → ⊥){displayed} → (x : {name}) → {w}_shown x ≡ t → ⊥
{unnamed}"""
