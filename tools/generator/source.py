"""A record's struct and its inherent impl, and the file that holds them."""
import re

from generator.accessors import accessors, lends
from generator.builders import builder, refusable
from generator.calls import CALL_IMPORTS, SHAPES, calls, display
from generator.convert import conversions
from generator.imports import imports, model_calls
from generator.text import doc, imported, together, tuple_of


def struct(r):
    fields = "".join(f"    {m.field}: {m.rust()},\n" for m in r.members)
    names = [m.field for m in r.members]
    short = f" {', '.join(names)} "
    # as rt fmt breaks lines
    if len(short) > 20:
        short = "\n" + "".join(f"            {it},\n" for it in names) + "        "
    if r.copy:
        return f"""{doc(r.about)}
#[derive(Clone, Copy, Debug, PartialEq, Eq)]
pub struct {r.name} {{
{fields}}}
"""
    derived = "Debug" if r.own_equality() else "Debug, PartialEq, Eq"
    return f"""{doc(r.about)}
#[derive({derived})]
pub struct {r.name} {{
{fields}}}
{equality(r) if r.own_equality() else ""}
impl Drop for {r.name} {{
    fn drop(self) {{
        let {r.name} {{{short}}} = self;
    }}
}}
"""


def equality(r):
    """The equality of a record that holds an object of any values."""
    parts = [f"equal_optional_values(&self.{m.field}, &other.{m.field})" if m.type.kind == "FreeValues" else f"self.{m.field} == other.{m.field}" for m in r.members]
    return f"""
impl PartialEq for {r.name} {{
    ghost use Rattle.std.specs.Cmp.{{partial_equiv_from_equiv}};
    ghost use Rattle.oci_model.specs.SameFree.{{agrees_equiv}};
    ghost use Rattle.{r.book.crate}.specs.{r.name}.{{{r.word}_eq, {r.word}_same}};

    ghost eq = {{ {r.word}_eq }};

    ghost laws = {{ partial_equiv_from_equiv (agrees_equiv {r.word}_same) }};

    /// Returns whether the contents are equal. Objects of any values are compared recursively; in them, all numbers that are not
    /// 64-bit integers compare equal.
    fn eq(&self, other: &{r.name}) -> bool {{
        {(chr(10) + "            && ").join(parts)}
    }}
}}

impl Eq for {r.name} {{
    ghost use Rattle.oci_model.specs.SameFree.{{agrees_equiv}};
    ghost use Rattle.{r.book.crate}.specs.{r.name}.{{{r.word}_same}};

    ghost laws = {{ agrees_equiv {r.word}_same }};
}}
"""


def try_default(r):
    fields, asked = "", refusable(r)
    for m in r.members:
        code = r.defaults[m.field][0] if m.field in r.defaults else "None"
        code = m.field if m in asked else code
        some = m.optional and m.field in r.defaults
        fields += f"            {m.field}: {f'Some({code})' if some else code},\n" if some or code != m.field else f"            {code},\n"
    taken = ""
    if asked:
        taken = f"        let {tuple_of([m.field for m in asked])} = {together([r.defaults[m.field][0][:-1] for m in asked])}?;\n"
    alloc = "alloc" if re.search(r"\balloc\b", fields + taken) else "_alloc"
    return f"""
    /// Returns the default document. Fails with `Memory` alone.
    pub fn try_default({alloc}: Global) -> Result<{r.name}>
        ensures ok {{ IfOk result (λ x. {r.word}_plain x ≡ default_{r.word}) }}
        ensures err {{ IfErr result (λ e. e ≡ OciSpecError.Memory) }}
    {{
{taken}        Ok({r.name} {{
{fields}        }})
    }}
"""


def bare(r):
    """The function that returns a document of the members that are always there, for a builder in a crate above."""
    given = ", ".join(f"{m.field}: {m.type.rust}" for m in r.members if not m.optional)
    shown = "".join(f"      {m.field} = {'None' if m.optional else m.field};\n" for m in r.members)
    fields = "".join(f"        {m.field}: None,\n" if m.optional else f"        {m.field},\n" for m in r.members)
    names = " and ".join(f"`{m.field}`" for m in r.members if not m.optional)
    return f"""/// Returns a document with {names} and no other member.
pub fn bare({given}) -> {r.name}
    ensures {{ result ≡ record {{
{shown}    }} }}
{{
    {r.name} {{
{fields}    }}
}}
"""


def inherent(r):
    lent = lends(r) if "fields" not in r.long else []
    calls_here = r.calls and "calls" not in r.long
    out = f"impl {r.name} {{\n"
    if lent:
        out += imported("std.specs.Borrow", ["sem"], True)
    if calls_here:
        out += CALL_IMPORTS
    below = ([f"default_{r.word}"] if r.whole and r.default_is_in_a_shape() else []) + [r.word] * calls_here
    own = ([f"default_{r.word}"] if r.whole and not r.default_is_in_a_shape() else []) + [f"{r.word}_plain"] + lent
    out += imported(f"{SHAPES}.specs.{r.name}", below, True) + imported(f"{r.book.crate}.specs.{r.name}", own, True)
    out += f"""
    /// Returns a copy of the document. Fails with `Memory` alone.
    pub fn clone(&self, alloc: Global) -> Result<{r.name}>
        ensures ok {{ IfOk result (λ x. {r.word}_plain x ≡ {r.word}_plain self.now) }}
        ensures err {{ IfErr result (λ e. e ≡ OciSpecError.Memory) }}
    {{
        self.duplicate(alloc)
    }}
"""
    out += try_default(r) if r.whole else ""
    out += accessors(r) if "fields" not in r.long else ""
    return out + (calls(r) if calls_here else "") + "}\n"


def modules(r):
    """The declarations of the files beside its own, and what it re-exports of them."""
    parts = ["pub mod builder;\n"] * ("builder" in r.long) + ["mod calls;\n"] * ("calls" in r.long) + ["mod fields;\n"] * ("fields" in r.long)
    parts += [f"mod {it};\n" for it in r.by_hand]
    return "".join(parts) + "\n" * bool(parts)


def reexports(r):
    out = [f"pub use builder::{r.name}Builder;\n"] * ("builder" in r.long)
    out += [f"pub use {part}::{item};\n" for part, items in r.reexports.items() for item in items]
    return out


def std_imports(r, body):
    out = "use serde_json::Value;\nuse std::alloc::Global;\n"
    for word in ("BTreeMap", "HashSet"):
        out += f"use std::collections::{word};\n" * (word in body)
    if r.display:
        out += "use std::fmt;\n"
    if r.calls and "calls" not in r.long:
        out += "use std::io::{Read, Write};\nuse std::rt::Files;\n"
    return out


def source(r):
    body = struct(r) + "\n" + (bare(r) + "\n" if r.above else "") + inherent(r) + (display(r) if r.display else "") + "\n" + conversions(r)
    if "builder" not in r.long and not r.above:
        body += "\n" + builder(r)
    schema = ["OciRecord"] + model_calls(body)
    out = f"//! {r.about}\nghost use Rattle.std.specs.Prelude.{{◌≡◌, {'None, ' if r.above else ''}IfOk, IfErr}};\n\n"
    out += modules(r) + "".join(reexports(r)) + imports(r, body, schema) + std_imports(r, body)
    return out + f'\nconst NAME: &str = "{r.name}";\n\n' + body
