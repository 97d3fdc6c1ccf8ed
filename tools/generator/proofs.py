"""The proof answers of conversions, for which the search takes long or which it does not find."""
import re

from generator.builders import given_or_default, refusable
from generator.records import WRITE
from generator.text import called, groups, imported, used

ORDINALS = ("first", "second", "third", "fourth", "fifth")


def read_answers(r):
    """The answer for the error of a record that is read: it is that of its members."""
    exit = f"returns-in_err-{r.members[0].field}-clause-err"
    return f"""-- The error of its members.
use Rattle.oci_model.proofs.Lists.{{exits}}
use Rattle.{r.book.crate}.proofs.{r.word}.{r.name}OciRecord.from_value_owned.Goals as goal

pub {exit} : goal.{exit}
{exit} c = exits _ _ _ c.from_residual.ensures.1 c.in_err-{r.members[0].field}.ensures.err
"""


def told_of(told, calls, lets):
    """What is known of the results of these calls, of which `told` says that they were joined; `lets` gains what is known of each group."""
    if len(calls) <= 5:
        return [f"answered _ _ _ {told}.{at} c.{call}.ensures.ok" for at, call in enumerate(calls)]
    out = []
    joins = called([f"try_join{len(it)}" for it in groups(calls)])
    for at, (word, join, group) in enumerate(zip(ORDINALS, joins, groups(calls))):
        lets.append(f"{word} = answered _ _ _ {told}.{at} c.{join}.ensures.ok")
        out += told_of(word, group, lets)
    return out


def write_answers(r):
    """The answers for what a long record writes, member by member from the last: its object, that it fits its shape, and why there is an error."""
    calls = called(["write_optional_as" if m.type.kind else "write_" + WRITE[m.presence] for m in r.members])
    count = len(calls)
    lets = "".join(f"    let told_{at} = c.{calls[at]}.ensures.ok {f'told_{at + 1}.0.0' if at + 1 < count else 'none'} in\n" for at in reversed(range(count)))
    puts = [f'with_member (codes "{m.name}") _' if m.optional else f'put (codes "{m.name}") _' for m in r.members]
    lines = "".join(f"    told_{at}.0.1 ∙ ap ({puts[at]}) (\n" for at in reversed(range(count)))
    fits = "".join(f"(told_{at}.1, " for at in range(count))
    refused = "".join(f"    let is_{at} = before _ _ _ _ (c.{calls[at]}.ensures.err e {f'is_{at + 1}' if at + 1 < count else 'is'}) schema written{'.1' * at}.0 in\n"
                      for at in reversed(range(count)))
    data = ", ".join(["object"] + used(["put"], lines))
    return f"""-- What is written without an error, and why there is one.
use Rattle.std.proofs.Common.{{codes, ap, refl, sym, ◌∙◌}}
use Rattle.serde_json.specs.Data.{{{data}}}
{imported("oci_model.specs.Value", used(["with_member"], lines))}use Rattle.oci_model.proofs.Unfaulted.{{before, refused, unfaulted, unfaulted_view}}
use Rattle.{r.book.crate}.proofs.{r.word}.{r.name}OciRecord.to_value.Goals as goal

pub returns-clause-ok : goal.returns-clause-ok
returns-clause-ok c = unfaulted_view _ _ _ _ c.object.ensures.ok (λ none.
{lets}    ap object (
{lines}    c.new-members.ensures.members{")" * (count + 1)})

pub returns-clause-fits : goal.returns-clause-fits
returns-clause-fits c = unfaulted _ _ _ _ c.object.ensures.ok (λ none.
{lets}    (_, refl, {fits}tt{")" * (count + 2)}

pub returns-clause-err : goal.returns-clause-err
returns-clause-err c = refused _ _ _ c.object.ensures.err (λ e is schema written.
{refused}    sym c.new-members.ensures.fault ∙ is_0)
"""


def copy_answers(r):
    """The answer for what a copy has, member by member."""
    copied = [m for m in r.members if m.copies()]
    calls = called([m.copy_call() for m in copied])
    lets = []
    if len(calls) == 1:
        known = [f"c.in_ok-{calls[0]}.ensures.ok"]
    else:
        known = told_of(f"c.in_ok-{copied[0].field}.ensures.ok", calls, lets)
    terms = iter(known)
    lines = ""
    for m in r.members:
        term = (next(terms) if m.optional else f"ap filled ({next(terms)})") if m.copies() else "search rules" if m.type.text in ("i32", "i64") and not m.optional else "refl"
        lines += f"    ap₂ slot ({term}) (\n" if " " in term else f"    ap₂ slot {term} (\n"
    names = "".join(f"    let {it} in\n" for it in lets)
    together = imported("oci_model.proofs.Together", ["answered"] if "answered" in lines else [])
    return f"""-- What each member of a copy is.
{imported("std.proofs.Common", ["ap", "ap₂", "refl"] + used(["rules"], lines))}{together}use Rattle.oci_model.specs.Plain.{{{", ".join(["document"] + used(["filled"], lines) + ["slot"])}}}
use Rattle.{r.book.crate}.proofs.{r.word}.{r.name}OciRecord.duplicate.Goals as goal

pub returns-clause-ok : goal.returns-clause-ok
returns-clause-ok c =
{names}    ap document (
{lines}    refl{")" * (len(r.members) + 1)}
"""


def memory_answer(field, calls):
    """The answer for the error of four defaults together, which the search does not find: it is that of one of them."""
    lines = "".join(f"    c.{it}.ensures.err\n" for it in calls)
    return f"""
pub returns-in_err-{field}-clause-err : goal.returns-in_err-{field}-clause-err
returns-in_err-{field}-clause-err c =
    let IsMemory : OciSpecError → Type 0 = λ e. e ≡ Memory in
    left_with IsMemory _ _ c.from_residual.ensures.1 (each_4 {{T = OciSpecError}} IsMemory _ _ _ _ (Err _)
{lines}    c.in_err-{field}.ensures.err)
"""


def build_answers(r):
    """The answers for what a builder makes of the fields whose defaults take memory."""
    asked = refusable(r)
    calls = called([given_or_default(r, m) for m in asked])
    lets = []
    known = told_of(f"c.in_ok-{asked[0].field}.ensures.ok", calls, lets)
    answers = ""
    for m, term in zip(asked, known):
        named = [it for it in lets if it.split()[0] in re.findall(r"\w+", term)]
        lines = "".join(f"    let {it} in\n" for it in named)
        answers += f"""
pub returns-clause-{m.field} : goal.returns-clause-{m.field}
returns-clause-{m.field} c =
{lines}    {f"ap filled ({term})" if m.optional else term}
"""
    builder = f"{r.word}.builder" if "builder" in r.long else r.word
    of_error = ""
    if len(calls) == 4:
        answers += memory_answer(asked[0].field, calls)
        of_error = f"""{imported("oci_base.specs.declared.error.OciSpecError", ["OciSpecError"])}{imported("oci_base.specs.declared.error.OciSpecError.TheVariants", ["Memory"])}"""
        of_error += imported("oci_model.proofs.Refusals", ["each_4", "left_with"])
    filled = imported("std.proofs.Common", used(["ap"], answers) + ["◌≡◌", "Err"] * bool(of_error)) + of_error
    filled += imported("oci_model.specs.Plain", used(["filled"], answers))
    return f"""-- What was set, or else the default, of each field whose default takes memory.
{filled}use Rattle.oci_model.proofs.Together.{{answered}}
use Rattle.{r.book.crate}.proofs.{builder}.{r.name}Builder.build.Goals as goal
{answers}"""
