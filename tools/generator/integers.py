"""The integer types as members: one `impl OciMember` for each type that a description names."""

HEAD = """//! Integers as members.
ghost use Rattle.std.specs.Prelude.{◌≡◌, refl};
ghost use Rattle.serde_json.specs.View.{view};
ghost use Rattle.oci_model.specs.Means.{as_whole};

use crate::fault::refused;
use crate::record::OciMember;
use oci_base::Result;
use serde_json::Value;
use std::alloc::Global;

/// Returns the integer that the value holds, if it holds a 64-bit one.
fn whole(value: &Value) -> Option<i128>
    ensures { result ≡ as_whole (view value.now) }
{
    match value.as_number() {
        Some(number) => number.as_i128(),
        None => None,
    }
}

// the number of a type that a value holds, if it is in the type's range
macro_rules! read_whole {
    ($value:expr, $number:ty) => {
        match whole(&$value) {
            Some(n) => match <$number>::try_from(n) {
                Ok(x) => Ok(x),
                Err(_) => Err(refused("", "")),
            },
            None => Err(refused("", "")),
        }
    };
}
"""


def member(name):
    word = "integer" if name.startswith("i") else "number"
    return f"""
impl OciMember for {name} {{
    ghost use Rattle.oci_model.specs.Types.{{{name} as {name}_shape, {word}_plain}};
    ghost use Rattle.oci_model.specs.Same.{{same_{word}s}};

    ghost shape = {{ {name}_shape }};

    ghost plain = {{ {word}_plain }};

    #[tactic(auto, using(crate::proofs::Readers::not_whole, crate::proofs::Readers::out_of_range))]
    fn read(_alloc: Global, value: Value) -> Result<{name}> {{
        read_whole!(value, {name})
    }}

    fn write(&self, _alloc: Global) -> Result<Value> {{
        Ok(Value::from(*self))
    }}

    fn copy(&self, _alloc: Global) -> Result<{name}> {{
        Ok(*self)
    }}

    ghost well_formed = {{ refl }};

    ghost same = {{ same_{word}s }};
}}
"""


def source(types):
    return HEAD + "".join(member(it) for it in types)
