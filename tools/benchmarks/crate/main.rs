//! Makes a call of the crate `oci-spec` so often as is asked: bench CALL FILE COUNT, of manifest, index, config, layout, spec, features and
//! tags (read and printed, members in the order of the structs), the same with _ordered (in byte order, by way of a value) and with _value
//! (read by way of a value, too), reference (read and printed), from_str (read alone) and digest. With `print` for COUNT it prints once.
use oci_spec::{
    distribution::{Reference, TagList},
    image::{Digest, ImageConfiguration, ImageIndex, ImageManifest, OciLayout},
    runtime::{Features, Spec},
};
use serde::{de::DeserializeOwned, Serialize};
use std::{error::Error, hint::black_box, str::FromStr};

#[derive(Clone, Copy)]
enum Way {
    Typed,
    Ordered,
    Value,
}

/// The way that a call names by its ending, and the rest of its name.
fn way(call: &str) -> (&str, Way) {
    if let Some(kind) = call.strip_suffix("_ordered") {
        return (kind, Way::Ordered);
    }
    if let Some(kind) = call.strip_suffix("_value") {
        return (kind, Way::Value);
    }
    (call, Way::Typed)
}

fn printed<T: DeserializeOwned + Serialize>(input: &[u8], way: Way) -> serde_json::Result<String> {
    let document: T = match way {
        Way::Value => serde_json::from_value(serde_json::from_slice(input)?)?,
        _ => serde_json::from_slice(input)?,
    };
    match way {
        Way::Typed => serde_json::to_string(&document),
        _ => serde_json::to_string(&serde_json::to_value(&document)?),
    }
}

fn called(call: &str, input: &[u8], text: &str) -> Result<String, Box<dyn Error>> {
    let (kind, way) = way(call);
    Ok(match kind {
        "manifest" => printed::<ImageManifest>(input, way)?,
        "index" => printed::<ImageIndex>(input, way)?,
        "config" => printed::<ImageConfiguration>(input, way)?,
        "layout" => printed::<OciLayout>(input, way)?,
        "spec" => printed::<Spec>(input, way)?,
        "features" => printed::<Features>(input, way)?,
        "tags" => printed::<TagList>(input, way)?,
        "reference" => Reference::from_str(text)?.to_string(),
        "from_str" => {
            drop(black_box(Reference::from_str(text)?));
            String::new()
        }
        _ => {
            drop(black_box(Digest::from_str(text)?));
            String::new()
        }
    })
}

fn main() -> Result<(), Box<dyn Error>> {
    let words: Vec<String> = std::env::args().collect();
    let input = std::fs::read(&words[2])?;
    let text = std::str::from_utf8(&input)?;
    if words[3] == "print" {
        print!("{}", called(&words[1], &input, text)?);
        return Ok(());
    }
    for _ in 0..words[3].parse()? {
        drop(black_box(called(black_box(&words[1]), black_box(&input), black_box(text))?));
    }
    Ok(())
}
