"""An extensible enum's type: its variants and `Other`, a static table of their texts, and its impls."""
from generator.text import article


def head(n):
    """The imports."""
    out = f"//! {n.title}\n"
    out += "ghost use Rattle.std.specs.Prelude.{◌≡◌, IfOk, IfErr, IfSome, IfNone, string_bytes, Some, None, false};\n"
    out += "ghost use Rattle.std.specs.List.{slice_get};\n"
    out += "ghost use Rattle.oci_base.specs.Names.{other, opened, is_other, name_text};\n"
    out += f"ghost use Rattle.{n.crate}.specs.{n.name}.{{{n.word}_name, {n.table}}};\n\n"
    out += "".join(f"mod {it};\n" for it in n.by_hand) + "\n" * bool(n.by_hand)
    out += "".join(f"pub use {part}::{item};\n" for part, items in n.public.items() for item in items)
    return out + """use crate::place::place;
use oci_model::OciMember;
use oci_model::fault::refused;
use oci_model::parts::into_text;
use oci_base::{OciSpecError, Result};
use serde_json::Value;
use std::alloc::Global;
use std::fmt;

"""


def enum(n):
    """The type, and the table of its texts."""
    out = "".join(f"/// {it}\n" for it in n.about) + f"#[derive(Debug, Drop)]\npub enum {n.name} {{\n"
    for v in n.variants:
        out += f"    /// {v.what}\n" * bool(v.what) + f"    {v.name},\n"
    out += f"    /// Any other text.\n    Other(String),\n}}\n\n/// The texts of the variants, in their order.\nstatic TEXTS: [&str; {len(n.variants)}] = [\n"
    return out + "".join(f'    "{v.text}",\n' for v in n.variants) + "];\n\n"


def default(n):
    w, name, v = n.word, n.name, n.default()
    return f"""impl Default for {name} {{
    ghost use Rattle.std.specs.Prelude.{{codes}};
    ghost use Rattle.oci_base.specs.Names.{{variant}};

    ghost is_default = {{ λ m. {w}_name m ≡ variant (codes "{v.text}") }};

    fn default() -> {name} {{
        {name}::{v.name}
    }}
}}

"""


def equality(n):
    w, name = n.word, n.name
    return f"""impl PartialEq for {name} {{
    ghost use Rattle.std.specs.Cmp.{{on_per, partial_equiv_from_equiv}};
    ghost use Rattle.std.specs.Ordering.{{on}};
    ghost use Rattle.oci_base.specs.Names.{{name_eq, name_equiv}};

    ghost eq = {{ on {w}_name name_eq }};

    ghost laws = {{ on_per {w}_name (partial_equiv_from_equiv name_equiv) }};

    fn eq(&self, other: &{name}) -> bool {{
        self.is_other() == other.is_other() && self.as_ref() == other.as_ref()
    }}
}}

impl Eq for {name} {{
    ghost use Rattle.std.specs.Cmp.{{on_equiv}};
    ghost use Rattle.oci_base.specs.Names.{{name_equiv}};

    ghost laws = {{ on_equiv {w}_name name_equiv }};
}}

impl fmt::Display for {name} {{
    ghost use Rattle.std.specs.Prelude.{{Some}};

    ghost output = {{ λ m. Some (name_text ({w}_name m)) }};

    fn fmt<W: fmt::Write>(&self, f: &mut fmt::Formatter<W>) -> fmt::Result {{
        f.write_str(self.as_ref())
    }}
}}

"""


def reading(n):
    """How it is made of a text."""
    w, name = n.word, n.name
    places = "".join(f"            {at} => Some({name}::{v.name}),\n" for at, v in enumerate(n.variants))
    return f"""    /// The {n.noun} of a text: the variant of a listed one, else `Other` of the text.
    pub fn from_text(alloc: Global, text: &str) -> Result<{name}>
        ensures ok {{ IfOk result (λ m. {w}_name m ≡ opened {n.table} text.now) }}
        ensures err {{ IfErr result (λ e. e ≡ OciSpecError.Memory) }}
    {{
        match {name}::known(text) {{
            Some(known) => Ok(known),
            None => Ok({name}::Other(String::from_str(alloc, text)?)),
        }}
    }}

    /// The {n.noun} of a text, which becomes its own where it is `Other`.
    pub fn from_string(text: String) -> {name}
        ensures {{ {w}_name result ≡ opened {n.table} (string_bytes text) }}
    {{
        match {name}::known(text.as_str()) {{
            Some(known) => {{
                drop(text);
                known
            }}
            None => {name}::Other(text),
        }}
    }}

    // the variant of a listed text
    #[tactic(auto, using(crate::proofs::Opened::named_at, crate::proofs::Opened::none_at))]
    fn known(text: &str) -> Option<{name}>
        ensures some {{ IfSome result (λ m. {w}_name m ≡ opened {n.table} text.now) }}
        ensures none {{ IfNone result (other text.now ≡ opened {n.table} text.now) }}
    {{
        match place(text, &TEXTS) {{
            Some(place) => {name}::at(place),
            None => None,
        }}
    }}

    // the variant whose text stands at this place of the table
    fn at(place: usize) -> Option<{name}>
        ensures some {{ IfSome result (λ m. slice_get {n.table} place ≡ Some (name_text ({w}_name m))) }}
        ensures named {{ IfSome result (λ m. is_other ({w}_name m) ≡ false) }}
        ensures none {{ IfNone result (slice_get {n.table} place ≡ None) }}
    {{
        match place {{
{places}            _ => None,
        }}
    }}
"""


def writing(n):
    """Its text, and its copy."""
    w, name = n.word, n.name
    texts = "".join(f'            {name}::{v.name} => "{v.text}",\n' for v in n.variants)
    return f"""
    /// The text.
    pub fn as_ref(&self) -> &str
        ensures {{ result.now ≡ name_text ({w}_name self.now) }}
    {{
        match self {{
{texts}            {name}::Other(text) => text.as_str(),
        }}
    }}

    /// {article(n.noun.capitalize()).capitalize()} equal {n.noun}.
    pub fn clone(&self, alloc: Global) -> Result<{name}>
        ensures ok {{ IfOk result (λ m. {w}_name m ≡ {w}_name self.now) }}
        ensures err {{ IfErr result (λ e. e ≡ OciSpecError.Memory) }}
    {{
        match self {{
            {name}::Other(text) => Ok({name}::Other(String::from_str(alloc, text.as_str())?)),
            named => {name}::from_text(alloc, named.as_ref()),
        }}
    }}

    fn is_other(&self) -> bool
        ensures {{ result ≡ is_other ({w}_name self.now) }}
    {{
        matches!(self, {name}::Other(_))
    }}
"""


def member(n):
    w, name = n.word, n.name
    return f"""impl OciMember for {name} {{
    ghost use Rattle.std.specs.Prelude.{{refl}};
    ghost use Rattle.oci_model.specs.Shape.{{open_name}};
    ghost use Rattle.oci_model.specs.Types.{{name_plain}};
    ghost use Rattle.oci_model.specs.Same.{{same_named}};

    ghost shape = {{ open_name {n.table} }};

    ghost plain = {{ λ m. name_plain ({w}_name m) }};

    #[tactic(auto, using(oci_model::proofs::Readers::no_name, crate::proofs::OpenMembers::name_means))]
    fn read(_alloc: Global, value: Value) -> Result<{name}> {{
        match into_text(value) {{
            Some(text) => Ok({name}::from_string(text)),
            None => Err(refused("", "")),
        }}
    }}

    #[tactic(auto, using(crate::proofs::OpenMembers::text_of_name, crate::proofs::Named{name}::{w}_fits))]
    fn write(&self, alloc: Global) -> Result<Value> {{
        Ok(Value::String(String::from_str(alloc, self.as_ref())?))
    }}

    fn copy(&self, alloc: Global) -> Result<{name}> {{
        self.clone(alloc)
    }}

    ghost well_formed = {{ refl }};

    ghost same = {{ same_named {w}_name }};
}}
"""


def open_source(n):
    out = head(n) + enum(n) + (default(n) if n.default() else "") + equality(n)
    return out + f"impl {n.name} {{\n{reading(n)}{writing(n)}}}\n\n" + member(n)
