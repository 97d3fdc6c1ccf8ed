//! Makes a call of the crate `ciderglen` so often as is asked: bench CALL FILE COUNT, of manifest, spec, reference and digest.
use ciderglen::{is_digest, normalize, Kind, Reference};
use std::hint::black_box;

fn main() -> Result<(), Box<dyn std::error::Error>> {
    let words: Vec<String> = std::env::args().collect();
    let input = std::fs::read(&words[2])?;
    let text = std::str::from_utf8(&input)?;
    for _ in 0..words[3].parse()? {
        match words[1].as_str() {
            "manifest" => drop(black_box(normalize(Kind::Manifest, black_box(&input))?)),
            "spec" => drop(black_box(normalize(Kind::Spec, black_box(&input))?)),
            "reference" => drop(black_box(Reference::parse(black_box(text))?)),
            _ => assert!(black_box(is_digest(black_box(text)))),
        }
    }
    Ok(())
}
