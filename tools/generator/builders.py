"""A record's builder."""
import re

from generator.imports import JOINS, imports
from generator.records import OPEN_NAMES, snake
from generator.text import article, doc, imported, lowered, together, tuple_of, used

PLAIN_TERMS = ["given", "perhaps", "text_plain", "truth_plain", "number_plain", "integer_plain", "name_plain", "variant_plain",
               "list_plain", "map_plain"]


def asked(r, m):
    """Whether the builder asks for the member's field."""
    return m.field in r.required


def defaulted(r, m):
    """Whether the builder fills the member's field with its default."""
    return m.field in r.defaults and not asked(r, m)


def refusable(r):
    """The members whose defaults may fail, where there are several: all are made before one return."""
    found = [m for m in r.members if m.field in r.defaults and r.defaults[m.field][0].endswith("?")]
    return found if len(found) > 1 else []


def given_or_default(r, m):
    """The name of the function that returns a builder's field or its default, one for all fields of a type and a default."""
    made = re.fullmatch(r"default_(\w+)\(alloc\)\?", r.defaults[m.field][0])
    return f"{made[1] if made else m.field}_or_default"


def filled_or_default(r):
    """The functions that return a builder's field or its default, where several of these may fail."""
    out = {}
    for m in refusable(r):
        code, plain = r.defaults[m.field]
        name = given_or_default(r, m)
        out[name] = f"""
    fn {name}(alloc: Global, given: Option<{m.type.rust}>) -> Result<{m.type.rust}>
        ensures ok {{ IfOk result (λ x. {m.type.of('x')} ≡ unwrap_or (option_map {m.type.plain} given) ({plain})) }}
        ensures err {{ IfErr result (λ e. e ≡ OciSpecError.Memory) }}
    {{
        match given {{
            Some(given) => Ok(given),
            None => {code[:-1]},
        }}
    }}
"""
    return "".join(out.values())


def field_clause(r, m):
    """What a built document has in one field."""
    if m.field in r.fixed:
        return f"{m.type.of('x.' + m.field)} ≡ {r.defaults[m.field][1]}"
    if defaulted(r, m) and m.optional:
        return f"perhaps {m.type.plain} x.{m.field} ≡ filled (unwrap_or (option_map {m.type.plain} self.{m.field}) ({r.defaults[m.field][1]}))"
    if defaulted(r, m):
        return f"{m.type.of('x.' + m.field)} ≡ unwrap_or (option_map {m.type.plain} self.{m.field}) ({r.defaults[m.field][1]})"
    return f"self.{m.field} ≡ Some x.{m.field}" if asked(r, m) else f"x.{m.field} ≡ self.{m.field}"


def built_clauses(r):
    """What a builder's document is: as one equation, or field by field where some have defaults."""
    if any(defaulted(r, m) for m in r.members):
        return "".join(f"        ensures {m.field} {{ IfOk result (λ x. {field_clause(r, m)}) }}\n" for m in r.members)
    built = "; ".join(f"{m.field} = {'Some x.' + m.field if asked(r, m) and not m.optional else 'x.' + m.field}" for m in r.members)
    all_set = f"        ensures set {{ OnOk result (IsNone ({r.word}_unset self)) }}\n" if any(asked(r, m) and m.optional for m in r.members) else ""
    return f"        ensures built {{ IfOk result (λ x. self ≡ record {{ {built} }}) }}\n{all_set}"


def set_from_bare(r, made):
    """The end of a builder's `build` in a crate above: the optional members are set in the bare document."""
    given = dict(re.findall(r"^ +(\w+)(?:: (.*))?,$", made, re.M))
    sets = "\n            ".join(f".set_{m.call}({given[m.field] or m.field})" for m in r.members if m.optional)
    return f"        let mut {r.word} = bare({', '.join(m.field for m in r.members if not m.optional)});\n        {r.word}{sets};\n        Ok({r.word})\n"


def builder_setters(r, members):
    out = ""
    for m in members:
        out += f"""
{doc(f"Sets `{m.call}`: {lowered(m.text)}", "    ")}
    pub fn {m.call}(mut self, {m.call}: {m.type.rust}) -> Self
        ensures {{ result ≡ record self {{ {m.field} = Some {'«data»' if m.call == 'data' else m.call} }} }}
    {{
        self.{m.field} = Some({m.call});
        self
    }}
"""
    return out


def made_fields(r, of_self):
    """The fields of the record that `build` makes."""
    made = ""
    for m in r.members:
        f = m.field
        if f in r.fixed:
            made += f"            {f}: {r.defaults[f][0]},\n"
        elif m.optional and (m in refusable(r) or asked(r, m)):
            made += f"            {f}: Some({f}),\n"
        elif asked(r, m) or defaulted(r, m) or not of_self:
            made += f"            {f},\n"
        else:
            made += f"            {f}: self.{f},\n"
    return made


def takings(r, members):
    """The beginning of `build`, and the prefix of fields if it did not destructure the builder."""
    takes = f"        let {r.name}Builder {{ {', '.join(m.field for m in members)} }} = self;\n" if r.required or any(defaulted(r, m) for m in members) else ""
    of_self = "" if takes else "self."
    for f in r.required:
        takes += f'        let Some({f}) = {of_self}{f} else {{\n            return Err(UninitializedFieldError::new("{f}").into());\n        }};\n'
    several = refusable(r)
    if several:
        takes += f"        let {tuple_of([m.field for m in several])} = {together([f'Self::{given_or_default(r, m)}(alloc, {m.field})' for m in several])}?;\n"
    for m in r.members:
        if defaulted(r, m) and m.field not in r.fixed and m not in several:
            some = "Some({})" if m.optional else "{}"
            takes += f"        let {m.field} = match {of_self}{m.field} {{\n            Some({m.field}) => {some.format(m.field)},\n            None => {some.format(r.defaults[m.field][0])},\n        }};\n"
    return takes, of_self


def error_clause(r, body):
    if not r.required:
        return "        ensures err { IfErr result (λ e. e ≡ OciSpecError.Memory) }\n"
    if "?" in body:
        return f"        ensures unset {{ IfErr result (λ e. e ≡ OciSpecError.Memory ⊎ IsUnset ({r.word}_unset self) e) }}\n"
    return f"        ensures unset {{ IfErr result (λ e. IsUnset ({r.word}_unset self) e) }}\n"


def build_doc(r):
    out = "Builds the document."
    if r.required:
        out += " Fails with `Builder`, which names the first required field that is not set."
    if any(defaulted(r, m) and m.field not in r.fixed for m in r.members):
        out += " Fields that are not set have their defaults."
    return out


def build(r, members, clauses):
    """The builder's `build`."""
    takes, of_self = takings(r, members)
    made = made_fields(r, of_self)
    alloc = "alloc" if re.search(r"\balloc\b", takes + made) else "_alloc"
    return f"""
    /// {build_doc(r)}
    pub fn build(self, {alloc}: Global) -> Result<{r.name}>
{clauses}{error_clause(r, takes + made)}    {{
{takes}{set_from_bare(r, made) if r.above else f"        Ok({r.name} {{{chr(10)}{made}        }}){chr(10)}"}    }}
"""


def builder(r):
    members = [m for m in r.members if m.field not in r.fixed]
    fields = "".join(f"    {m.field}: Option<{m.type.rust}>,\n" for m in members)
    setters, clauses = builder_setters(r, members), built_clauses(r)
    body = build(r, members, clauses)
    out = f"""/// Builds {article(r.name)} `{r.name}`.
#[derive(Default, Drop)]
pub struct {r.name}Builder {{
{fields}}}

impl {r.name}Builder {{
"""
    if "build" in r.by_hand:
        return out + imported("std.specs.Prelude", ["Some"], True) + setters + "}\n"
    prelude = ["Some"] + used(["IsNone", "OnOk", "unwrap_or", "option_map", "codes", "pos", "false", "true"], clauses)
    prelude += ["[]"] * ("[]" in clauses) + ["◌⊎◌"] * ("⊎" in body)
    out += imported("std.specs.Prelude", prelude, True)
    if r.required:
        out += imported("oci_model.specs.Built", ["IsUnset"], True) + imported(f"{r.book.crate}.specs.{r.name}Builder", [f"{r.word}_unset"], True)
    return out + plain_imports(r, clauses) + setters + body + filled_or_default(r) + "}\n"


def plain_imports(r, text):
    """The imports of what clauses name of contents."""
    out = ""
    for rust, _ in OPEN_NAMES.values():
        out += imported(f"oci_text.specs.{rust}", used([f"{snake(rust)}_name"], text), True)
    if "plain." in text:
        out += "    ghost use Rattle.oci_model.specs.Plain as plain;\n"
    out += imported("oci_model.specs.Plain", used(["filled"], text), True)
    out += imported("oci_text.specs.CapabilitySets", used(["set_plain"], text), True)
    for path, words in r.book.words.items():
        out += imported(path, used(words, text), True)
    out += imported("oci_model.specs.Types", [t for t in used(PLAIN_TERMS, text) if t != "given"], True)
    for name in r.enums():
        out += imported(f"{r.book.names[name]}.specs.{name}", used([f"{snake(name)}_name", f"{snake(name)}_default"], text), True)
    for name, crate in r.parts():
        plain, default = used([f"{snake(name)}_plain"], text), used([f"default_{snake(name)}"], text)
        if r.book.default_home(name) == crate:
            plain, default = plain + default, []
        out += imported(f"{r.book.default_home(name)}.specs.{name}", default, True) + imported(f"{crate}.specs.{name}", plain, True)
    return out


def builder_source(r):
    """The builder of a long record, in a file of its own."""
    body = builder(r)
    home = f"{'crate' if r.above == r.book.crate else r.book.crate}::{{{r.name}, bare}}" if r.above else f"crate::{r.word}::{r.name}"
    out = f"//! The builder of `{r.name}`.\nghost use Rattle.std.specs.Prelude.{{◌≡◌, IfOk, IfErr}};\n\nuse {home};\n"
    out += imports(r, body, used(JOINS, body)) + "use std::alloc::Global;\n"
    if "BTreeMap" in body:
        out += "use std::collections::BTreeMap;\n"
    return out + "\n" + body
