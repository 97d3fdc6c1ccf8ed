"""A closed name's type: an enum with static tables of its texts, and its impls."""
from generator.text import imported


def prelude(n):
    parsed = "from_str" in n.marks or "from_shown" in n.marks
    errors = ["IfOk", "IfErr"] if n.refusal or parsed else []
    two = bool(n.refusal and n.shows())
    return ["◌≡◌"] * bool(calls(n)) + ["◌⊎◌"] * two + errors + ["IfSome", "IfNone"] * two + ["string_bytes"] * bool(n.refusal)


def head(n):
    """The imports."""
    w, name, marks = n.word, n.name, n.marks
    parsed = "from_str" in marks or "from_shown" in marks
    two = bool(n.refusal and n.shows())
    words = [f"{w}_name"] + [f"{w}_shown"] * (two or "from_shown" in marks) + [f"{w}_unknown"] * bool(n.refusal) + [f"{w}_number"] * bool(n.number)
    out = f"//! {n.title}\n" + imported("std.specs.Prelude", prelude(n), True).strip(" ")
    if n.refusal or parsed:
        out += f"ghost use Rattle.{n.crate}.specs.declared.{w}.{name}.{{{name}}};\n"
    out += f"ghost use Rattle.{n.crate}.specs.{name}.{{{', '.join(words)}}};\n\n"
    model = ["ClosedName"] + ["OciDefault"] * ("absent" in marks) + ["OciMember"] + ["named"] * two + ["parse_name"] * bool(parsed or n.refusal and not n.shows()) + ["read_name", "write_name"]
    out += f"use oci_model::{{{', '.join(model)}}};\n"
    out += "use oci_base::" + ("{OciSpecError, Result};\n" if n.refusal else "{Result, UnknownName};\n" if parsed else "Result;\n")
    out += "use serde_json::Value;\nuse std::alloc::" + ("{AllocError, Global}" if n.refusal else "Global") + ";\n"
    return out + "use std::fmt;\n" * ("display" in marks)


def table(name, kind, items):
    return f"static {name}: [{kind}; {len(items)}] = [\n" + "".join(f"    {it},\n" for it in items) + "];\n\n"


def enum(n):
    """The type, and its tables."""
    out = "".join(f"/// {it}\n" for it in n.about)
    derives = ["Clone", "Copy", "Debug", "PartialEq", "Eq"] + ["Hash"] * ("hashed" in n.marks)
    out += f"#[derive({', '.join(derives)})]\npub enum {n.name} {{\n"
    for v in n.variants:
        out += f"    /// {v.what}\n    {v.name},\n"
    out += "}\n\n" + table("ALL", n.name, [f"{n.name}::{v.name}" for v in n.variants])
    out += table("NAMES", "&str", [f'"{v.text}"' for v in n.variants])
    if n.shows():
        out += table("SHOWN", "&str", [f'"{v.shown}"' for v in n.variants])
    if n.number:
        out += table("NUMBERS", "u32", [v.number for v in n.variants])
    return out


def display(n):
    shown = f"{n.word}_shown" if n.shows() else f"{n.word}_name"
    here = "" if n.refusal or "from_shown" in n.marks or not n.shows() else imported(f"{n.crate}.specs.{n.name}", [shown], True)
    write = "SHOWN[*self as usize]" if n.shows() else "self.text()"
    return f"""impl fmt::Display for {n.name} {{
    ghost use Rattle.std.specs.Prelude.{{Some}};
{here}
    ghost output = {{ λ x. Some ({shown} x) }};

    fn fmt<W: fmt::Write>(&self, f: &mut fmt::Formatter<W>) -> fmt::Result {{
        f.write_str({write})
    }}
}}

"""


def from_str(n):
    return f"""
    /// Returns the variant with this JSON string.
    pub fn from_str(text: &str) -> std::result::Result<{n.name}, UnknownName>
        ensures ok {{ IfOk result (λ x. {n.word}_name x ≡ text.now) }}
        ensures err {{ IfErr result (λ e. (x : {n.name}) → ¬ ({n.word}_name x ≡ text.now)) }}
    {{
        parse_name(text)
    }}
"""


def from_shown(n):
    w, name = n.word, n.name
    arms = "".join(f'            "{v.shown}" => Ok({name}::{v.name}),\n            "{v.text}" => Err(UnknownName),\n' for v in n.apart())
    return f"""
    /// Returns the variant that is displayed so.
    #[tactic(auto, using(crate::proofs::Shown{name}::{w}_named, crate::proofs::Shown{name}::{w}_unnamed))]
    pub fn from_str(text: &str) -> std::result::Result<{name}, UnknownName>
        ensures ok {{ IfOk result (λ x. {w}_shown x ≡ text.now) }}
        ensures err {{ IfErr result (λ e. (x : {name}) → ¬ ({w}_shown x ≡ text.now)) }}
    {{
        match text {{
{arms}            _ => parse_name(text),
        }}
    }}
"""


def try_from(n):
    """`try_from` by its JSON strings alone."""
    w, name = n.word, n.name
    return f"""
    /// Returns the variant with this JSON string. Fails with `Other`, which names the text, if there is none.
    pub fn try_from(alloc: Global, text: &str) -> Result<{name}>
        ensures ok {{ IfOk result (λ x. {w}_name x ≡ text.now) }}
        ensures unknown {{ IfErr result (λ e. (x : {name}) → ¬ ({w}_name x ≡ text.now)) }}
        ensures err {{ IfErr result (Refuses (Some ({w}_unknown text.now))) }}
    {{
        match parse_name(text) {{
            Ok(x) => Ok(x),
            Err(_) => Err(OciSpecError::Other(unknown(alloc, text)?)),
        }}
    }}
"""


def try_from_both(n):
    """`try_from` by its JSON strings and its displayed texts."""
    w, name = n.word, n.name
    return f"""
    /// Returns the variant with this JSON string or displayed text. Fails with `Other`, which names the text, if there is none.
    pub fn try_from(alloc: Global, text: &str) -> Result<{name}>
        ensures ok {{ IfOk result (λ x. ({w}_name x ≡ text.now) ⊎ ({w}_shown x ≡ text.now)) }}
        ensures unknown {{ IfErr result (λ e. (x : {name}) → ¬ ({w}_name x ≡ text.now) × ¬ ({w}_shown x ≡ text.now)) }}
        ensures err {{ IfErr result (Refuses (Some ({w}_unknown text.now))) }}
    {{
        match spelled(text) {{
            Some(x) => Ok(x),
            None => Err(OciSpecError::Other(unknown(alloc, text)?)),
        }}
    }}
"""


def as_str(n):
    return f"""
    /// Returns the JSON string.
    pub fn as_str(&self) -> &'static str
        ensures {{ result.now ≡ {n.word}_name self.now }}
    {{
        self.text()
    }}
"""


def number(n):
    return f"""
    /// {n.number}
    pub fn number(&self) -> u32
        ensures {{ result ≡ {n.word}_number self.now }}
    {{
        NUMBERS[*self as usize]
    }}
"""


def calls(n):
    """Its methods."""
    out = from_str(n) if "from_str" in n.marks else ""
    out += from_shown(n) if "from_shown" in n.marks else ""
    if n.refusal:
        out += try_from_both(n) if n.shows() else try_from(n)
    out += as_str(n) if "as_str" in n.marks else ""
    return out + (number(n) if n.number else "")


def spelled(n):
    """The function that finds a variant by its JSON string or its displayed text."""
    w, name = n.word, n.name
    arms = "\n".join(f'        "{v.shown}" => Some({name}::{v.name}),' for v in n.apart())
    return f"""// the variant with this JSON string or displayed text
#[tactic(auto, using(crate::proofs::Unspelled{name}::{w}_other))]
fn spelled(text: &str) -> Option<{name}>
    ensures some {{ IfSome result (λ x. ({w}_name x ≡ text.now) ⊎ ({w}_shown x ≡ text.now)) }}
    ensures none {{ IfNone result ((x : {name}) → ¬ ({w}_name x ≡ text.now) × ¬ ({w}_shown x ≡ text.now)) }}
{{
    match text {{
{arms}
        _ => named(text, &ALL),
    }}
}}

"""


def unknown(n):
    """The function that writes the error of `try_from`."""
    before, after = n.refusal
    return f"""fn unknown(alloc: Global, text: &str) -> std::result::Result<String, AllocError>
    ensures {{ IfOk result (λ t. string_bytes t ≡ {n.word}_unknown text.now) }}
{{
    format!(in alloc; "{before} {{text}}{after}")
}}

"""


def closed_name(n):
    """Its impls as a closed name and as a type of members."""
    w, name = n.word, n.name
    return f"""impl ClosedName for {name} {{
    ghost use Rattle.{n.crate}.specs.{name}.{{all_{w}, {w}_back, {w}_same}};

    ghost values = {{ all_{w} }};

    ghost text_of = {{ {w}_name }};

    fn all() -> &'static [{name}] {{
        &ALL
    }}

    fn text(&self) -> &'static str {{
        NAMES[*self as usize]
    }}

    ghost back = {{ {w}_back }};

    ghost told = {{ {w}_same }};
}}
"""


def member(n):
    w, name = n.word, n.name
    return f"""
impl OciMember for {name} {{
    ghost use Rattle.std.specs.Prelude.{{refl}};
    ghost use Rattle.oci_model.specs.Shape.{{named}};
    ghost use Rattle.oci_model.specs.ClosedNames.{{same_variants, variant_plain}};
    ghost use Rattle.{n.crate}.specs.{name}.{{{w}_same, {w}_table}};

    ghost shape = {{ named {w}_table }};

    ghost plain = {{ variant_plain {w}_name }};

    fn read(_alloc: Global, value: Value) -> Result<{name}> {{
        read_name(&value)
    }}

    fn write(&self, alloc: Global) -> Result<Value> {{
        write_name(self, alloc)
    }}

    fn copy(&self, _alloc: Global) -> Result<{name}> {{
        Ok(*self)
    }}

    ghost well_formed = {{ refl }};

    ghost same = {{ same_variants {w}_same }};
}}
"""


def default(n):
    w, name = n.word, n.name
    equals = "" if "◌≡◌" in head(n) else imported("std.specs.Prelude", ["◌≡◌"], True)
    return f"""impl Default for {name} {{
{equals}    ghost use Rattle.{n.crate}.specs.{name}.{{{w}_default}};

    ghost is_default = {{ λ x. x ≡ {w}_default }};

    fn default() -> {name} {{
        {name}::{n.default().name}
    }}
}}

"""


def absent(n):
    w, name = n.word, n.name
    return f"""
impl OciDefault for {name} {{
    ghost use Rattle.oci_model.specs.Plain as plain_tree;
    ghost use Rattle.{n.crate}.specs.{name}.{{{w}_default}};

    ghost default_plain = {{ plain_tree.variant ({w}_name {w}_default) }};

    fn absent(_alloc: Global) -> {name} {{
        {name}::default()
    }}
}}
"""


def source(n):
    out = head(n) + "\n" + enum(n) + (default(n) if n.default() else "") + (display(n) if "display" in n.marks else "")
    uses = ""
    if n.refusal:
        out += (spelled(n) if n.shows() else "") + unknown(n)
        uses = imported("std.specs.Prelude", ["Some"], True) + imported("oci_base.specs.Refused", ["Refuses"], True) + "\n"
    if calls(n):
        out += f"impl {n.name} {{\n{uses}{calls(n)[1:]}}}\n\n"
    return out + closed_name(n) + member(n) + (absent(n) if "absent" in n.marks else "")
