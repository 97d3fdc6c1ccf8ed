//! Writes the canonical form of a manifest from standard input to standard output. If there is none, writes the violations of the
//! schema, or the error, to standard error.
use ciderglen::{normalize, violations, Error, Kind};
use std::io::{self, Read, Write};

fn main() -> Result<(), Box<dyn std::error::Error>> {
    let mut document = Vec::new();
    io::stdin().read_to_end(&mut document)?;
    let text = normalize(Kind::Manifest, &document);
    if text == Err(Error::InvalidDocument) {
        for violation in violations(Kind::Manifest, &document)? {
            eprintln!("{violation}");
        }
    }
    io::stdout().write_all(&text?)?;
    Ok(())
}
