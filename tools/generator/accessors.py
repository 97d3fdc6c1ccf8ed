"""A record's getters and setters."""
from generator.imports import imports
from generator.text import doc, imported


def getter(m):
    return f"""
{doc(m.text, "    ")}
    pub fn {m.call}(&self) -> &{m.rust()}
        ensures {{ result.now ≡ self.now.{m.field} }}
    {{
        &self.{m.field}
    }}
"""


def copy_getter(m):
    return f"""
{doc(m.text, "    ")}
    pub fn {m.call}(&self) -> {m.rust()}
        ensures {{ result ≡ self.now.{m.field} }}
    {{
        self.{m.field}
    }}
"""


def mutable_getter(m):
    return f"""
    /// Returns a mutable reference to `{m.call}`.
    pub fn {m.call}_mut(&mut self) -> &mut {m.rust()}
        ensures* writes_back {{ sem 𝓛 (lends_{m.field} self.entry result) }}
        ensures value {{ result.now ≡ self.old.{m.field} }}
    {{
        &mut self.{m.field}
    }}
"""


def setter(m):
    return f"""
    /// Sets `{m.call}`, and returns the document for further calls.
    pub fn set_{m.call}(&mut self, {m.call}: {m.rust()}) -> &mut Self
        ensures set {{ result.now ≡ record self.old {{ {m.field} = {'«data»' if m.call == 'data' else m.call} }} }}
        ensures same {{ result.ghost_name ≡ self.entry.ghost_name }}
    {{
        self.{m.field} = {m.call};
        self
    }}
"""


def accessors(r):
    kinds = {"g": getter, "c": copy_getter, "m": mutable_getter, "s": setter}
    return "".join(write(m) for m in r.members for mark, write in kinds.items() if mark in m.marks)


def lends(r):
    """The specification words of its mutable getters."""
    return [f"lends_{m.field}" for m in r.members if "m" in m.marks]


def fields_source(r):
    """The accessors of a long record."""
    body = f"impl {r.name} {{\n"
    if lends(r):
        body += imported("std.specs.Borrow", ["sem"], True) + imported(f"{r.book.crate}.specs.{r.name}", lends(r), True)
    body += accessors(r) + "}\n"
    out = f"//! The accessors of `{r.name}`.\nghost use Rattle.std.specs.Prelude.{{◌≡◌}};\n\nuse super::{r.name};\n" + imports(r, body, [])
    if "BTreeMap" in body:
        out += "use std::collections::BTreeMap;\n"
    return out + "\n" + body
