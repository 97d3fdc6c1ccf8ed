"""Builds the crate `oci-spec` with the crates that Debian has, outside the repository's own files."""
import glob
import hashlib
import os
import re
import shutil

from benchmarks.measuring import OUT, SOURCES, called

MAIN = f"{SOURCES}/crate/main.rs"
DEBIAN = """[source.crates-io]
replace-with = "debian"
[source.debian]
directory = "/usr/share/cargo/registry"
"""
CARGO = """[package]
name = "oci-spec"
version = "0.10.0"
edition = "2021"

[features]
default = ["distribution", "image", "runtime"]
distribution = []
image = []
runtime = []

[dependencies]
serde = { version = "1", features = ["derive"] }
serde_json = "1"
regex = "1"
const_format = "0.2"
derive_builder = "0.9"
getset = "0.1"
thiserror = "1"
strum = "0.19"
strum_macros = "0.19"
once_cell = "1"

[profile.release]
lto = true
"""
FROM_ERROR = "\nimpl From<OciSpecError> for String {\n    fn from(it: OciSpecError) -> String {\n        it.to_string()\n    }\n}\n"


def read(path):
    with open(path, encoding="utf-8") as file:
        return file.read()


def write(path, text):
    with open(path, "w", encoding="utf-8") as file:
        file.write(text)


def changed(path, *pairs):
    """Replaces what patterns match in a file."""
    text = read(path)
    for pattern, new in pairs:
        text = re.sub(pattern, new, text)
    write(path, text)


def state_of(upstream):
    """A digest of all that the program is made of."""
    found = hashlib.sha256()
    for path in sorted(glob.glob(f"{upstream}/src/**/*.rs", recursive=True)) + [MAIN, os.path.realpath(__file__)]:
        with open(path, "rb") as file:
            found.update(f"{path}\n".encode() + file.read())
    return found.hexdigest()


def copy_source(upstream, to):
    """Copies the crate's source, and changes in the copy what Debian's crates need."""
    shutil.rmtree(to, ignore_errors=True)
    shutil.copytree(f"{upstream}/src", f"{to}/src")
    os.makedirs(f"{to}/examples")
    os.makedirs(f"{to}/.cargo")
    shutil.copy(MAIN, f"{to}/examples/bench.rs")
    for name, text in (("Cargo.toml", CARGO), (".cargo/config.toml", DEBIAN), ("README.md", "")):
        write(f"{to}/{name}", text)
    for path in glob.glob(f"{to}/src/**/*.rs", recursive=True):
        changed(path, (r'(, )?error = "OciSpecError"(, )?', ""), (r"\n *build_fn\(\),?", ""))
    changed(f"{to}/src/lib.rs", (r"#!\[deny\(missing_docs, warnings\)\]", ""))
    changed(f"{to}/src/image/config.rs", (r"\n\)\)\.collect\(\);", ""))
    changed(f"{to}/src/runtime/mod.rs", (r"\nmod test;", ""))
    changed(f"{to}/src/error.rs", (r"derive_builder::UninitializedFieldError", "std::fmt::Error"), (r"\Z", FROM_ERROR))


def build_crate(upstream):
    """Builds the crate's program where it was not built of the same, in a copy that suits Debian's crates: `derive_builder` 0.9 lets
    builders fail with strings alone, and half of a statement for tests and a module of tests are missing in the source at hand. What is
    measured calls none of these."""
    target, state = f"{OUT}/crate_target", state_of(upstream)
    program, stamp = f"{target}/release/examples/bench", f"{target}/state"
    if os.path.exists(program) and os.path.exists(stamp) and read(stamp) == state:
        return program
    copy_source(upstream, f"{OUT}/crate_source")
    words = ["cargo", "build", "--offline", "--release", "--quiet", "--example", "bench"]
    called(words, cwd=f"{OUT}/crate_source", env={"CARGO_TARGET_DIR": target})
    write(stamp, state)
    return program
