"""An extensible enum's specification: its texts; and the proofs of what is read, written and copied."""


def declared(n):
    """Imports of the type and its variants."""
    home = f"Rattle.{n.crate}.specs.declared.{n.word}.{n.name}"
    return f"use {home}.{{{n.name}}}\nuse {home}.TheVariants.{{{', '.join(v.name for v in n.variants)}, Other}}\n"


def open_spec(n):
    w = n.word
    texts = "".join(f'{w}_name {v.name} = variant (codes "{v.text}")\n' for v in n.variants)
    return f"""-- {n.title}
use Rattle.std.specs.Prelude.{{ℕ, List, [], ◌∷◌, codes, map, string_bytes}}
use Rattle.oci_base.specs.Names.{{Name, variant, other, name_text}}
{declared(n)}
-- the variants and their texts
abbrev pub {w}_name : {n.name} → Name
{texts}{w}_name (Other text) = other (string_bytes text)

-- the texts that are listed
abbrev pub {n.table} : List (List ℕ)
{n.table} = map (λ m. name_text ({w}_name m)) ({' ∷ '.join(v.name for v in n.variants)} ∷ [])
"""


def named(n):
    """The lemmas about the variants other than `Other`."""
    w, name = n.word, n.name
    back = "".join(f"{w}_back {v.name} h = refl\n" for v in n.variants)
    return f"""-- {n.title}
use Rattle.std.proofs.Common.{{◌≡◌, String, Global, false, refl}}
use Rattle.oci_base.specs.Names.{{is_other, name_text, opened}}
use Rattle.oci_model.specs.Fits.{{FitsOpen}}
use Rattle.oci_model.specs.Types.{{name_plain}}
use Rattle.oci_text.proofs.OpenMembers.{{fits}}
use Rattle.{n.crate}.specs.{name}.{{{w}_name, {n.table}}}
{declared(n)}
-- a named one is read from its own text
pub {w}_back : (m : {name}) → is_other ({w}_name m) ≡ false → opened {n.table} (name_text ({w}_name m)) ≡ {w}_name m
{back}{w}_back (Other text) h = cc h

-- what is written is listed, or an other text
pub {w}_fits : (m : {name}) → FitsOpen {n.table} (name_plain ({w}_name m))
{w}_fits m = fits {n.table} ({w}_name m) ({w}_back m)

-- what is no other text is named
pub {w}_named : (m : {name}) → ((text : String Global) → m ≡ Other text → ⊥) → is_other ({w}_name m) ≡ false
{w}_named (Other text) out = absurd (out text refl)
{w}_named m out = refl
"""


def clone_answers(n):
    w, name = n.word, n.name
    return f"""-- A named one is read from its own text.
use Rattle.std.proofs.Common.{{◌≡◌, ap, ◌∙◌, subst}}
use Rattle.std.specs.Result.{{IfOk}}
use Rattle.oci_base.specs.Names.{{opened}}
use Rattle.{n.crate}.specs.{name}.{{{w}_name, {n.table}}}
use Rattle.{n.crate}.proofs.Named{name}.{{{w}_back, {w}_named}}
use Rattle.{n.crate}.proofs.{w}.{name}.clone.Goals as goal

pub returns-in_default : goal.returns-in_default
returns-in_default c =
    let back = ap (opened {n.table}) c.as_ref.ensures ∙ {w}_back c.args.self.now ({w}_named c.args.self.now c.in_default.not-Other) in
    record {{ ok = subst (λ n. IfOk c.from_text.result (λ m. {w}_name m ≡ n)) back c.from_text.ensures.ok; err = c.from_text.ensures.err }}
"""


def read_answers(n):
    w, name = n.word, n.name
    return f"""-- The text means the name that it opens.
use Rattle.std.proofs.Common.{{string_bytes}}
use Rattle.serde_json.specs.View.{{view}}
use Rattle.{n.crate}.specs.{name}.{{{w}_name, {n.table}}}
use Rattle.oci_text.proofs.OpenMembers.{{name_means}}
use Rattle.{n.crate}.proofs.{w}.{name}OciMember.read.Goals as goal

pub returns-in-Some-clause-ok : goal.returns-in-Some-clause-ok
returns-in-Some-clause-ok c = name_means {n.table} (string_bytes c.in-Some.text) (view c.args.value) ({w}_name c.from_string.result) c.in-Some.ensures c.from_string.ensures
"""


def open_files(n):
    """Its specification and proofs, by their paths in its crate."""
    proofs = f"proofs/{n.word}"
    return {f"specs/{n.name}.antt": open_spec(n), f"proofs/Named{n.name}.antt": named(n), f"{proofs}/{n.name}/clone/Answers.antt": clone_answers(n),
            f"{proofs}/{n.name}OciMember/read/Answers.antt": read_answers(n)}
