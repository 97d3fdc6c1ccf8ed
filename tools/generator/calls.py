"""A record's calls that deserialize and serialize it, and its Display."""
from generator.text import imported

SHAPES = "oci_shapes"
CALL_IMPORTS = """    ghost use Rattle.std.specs.Prelude.{IfSome, OnOk};
    ghost use Rattle.oci_base.specs.Refused.{IsMemory, IsSchema, IsJson, IsMemoryOrIo, IsMemorySerDeOrIo};
    ghost use Rattle.oci_model.specs.Value.{value as json_of};
    ghost use Rattle.oci_json.specs.Engines.{MeansBytes, IsNoJson, IsNoDocument, AppendsCompact, AppendsPretty, BeginsCompact, BeginsPretty, KeepsUnlessIo, IsCompactText, IsPrettyText, ReadsBack};
"""


def readers(r):
    shape, plain, n = r.word, f"{r.word}_plain", r.name
    return f"""
    /// Deserializes the JSON file at `path`. Fails with `Io` if a read fails, or `SerDe` if the bytes are not JSON or the schema rejects them.
    pub fn from_file<R: Files>(rt: &R, alloc: Global, path: &str) -> Result<{n}>
        ensures kind {{ IfErr result IsMemorySerDeOrIo }}
    {{
        oci_json::from_file(rt, alloc, path)
    }}

    /// Reads to the end and deserializes the bytes. Fails with `Io` if a read fails, or `SerDe` if the bytes are not JSON or the schema
    /// rejects them.
    pub fn from_reader<R: Read + Drop>(alloc: Global, reader: R) -> Result<{n}>
        ensures ok {{ IfOk result (λ x. IfSome (R.remaining reader) (λ bytes. MeansBytes {shape} bytes ({plain} x))) }}
        ensures json {{ IfErr result (λ e. IsJson e → IfSome (R.remaining reader) IsNoJson) }}
        ensures schema {{ IfErr result (λ e. IsSchema e → IfSome (R.remaining reader) (IsNoDocument {shape})) }}
        ensures kind {{ IfErr result IsMemorySerDeOrIo }}
    {{
        oci_json::from_reader(alloc, reader)
    }}
"""


def file_writers(r):
    return """
    /// Serializes to compact JSON in the file at `path`, which is created or truncated once the JSON is complete.
    pub fn to_file<R: Files>(&self, rt: &R, alloc: Global, path: &str) -> Result<()>
        ensures kind { IfErr result IsMemoryOrIo }
    {
        oci_json::to_file(rt, self, alloc, path)
    }

    /// Serializes to pretty JSON in the file at `path`, which is created or truncated once the JSON is complete.
    pub fn to_file_pretty<R: Files>(&self, rt: &R, alloc: Global, path: &str) -> Result<()>
        ensures kind { IfErr result IsMemoryOrIo }
    {
        oci_json::to_file_pretty(rt, self, alloc, path)
    }
"""


def writers(r):
    json = f"(json_of {r.word} ({r.word}_plain self.now))"
    before_after = "(W.contents writer.old) (W.contents writer.new)"
    return f"""
    /// Serializes to compact JSON. On `Io` a prefix of it was written, on `Memory` nothing.
    pub fn to_writer<W: Write>(&self, alloc: Global, writer: &mut W) -> Result<()>
        ensures ok {{ OnOk result (AppendsCompact {before_after} {json}) }}
        ensures reads_back {{ OnOk result (ReadsBack {json}) }}
        ensures begun {{ IfErr result (BeginsCompact {before_after} {json}) }}
        ensures unwritten {{ IfErr result (KeepsUnlessIo {before_after}) }}
        ensures kind {{ IfErr result IsMemoryOrIo }}
    {{
        oci_json::to_writer(self, alloc, writer)
    }}

    /// Serializes to pretty JSON. On `Io` a prefix of it was written, on `Memory` nothing.
    pub fn to_writer_pretty<W: Write>(&self, alloc: Global, writer: &mut W) -> Result<()>
        ensures ok {{ OnOk result (AppendsPretty {before_after} {json}) }}
        ensures begun {{ IfErr result (BeginsPretty {before_after} {json}) }}
        ensures unwritten {{ IfErr result (KeepsUnlessIo {before_after}) }}
        ensures kind {{ IfErr result IsMemoryOrIo }}
    {{
        oci_json::to_writer_pretty(self, alloc, writer)
    }}
"""


def string_writers(r):
    json = f"(json_of {r.word} ({r.word}_plain self.now))"
    return f"""
    /// Serializes to a compact JSON string.
    pub fn to_string(&self, alloc: Global) -> Result<String>
        ensures ok {{ IfOk result (IsCompactText {json}) }}
        ensures reads_back {{ OnOk result (ReadsBack {json}) }}
        ensures kind {{ IfErr result IsMemory }}
    {{
        oci_json::to_string(self, alloc)
    }}

    /// Serializes to a pretty JSON string: one line per member or item, indented by two spaces per level, without a final newline.
    pub fn to_string_pretty(&self, alloc: Global) -> Result<String>
        ensures ok {{ IfOk result (IsPrettyText {json}) }}
        ensures kind {{ IfErr result IsMemory }}
    {{
        oci_json::to_string_pretty(self, alloc)
    }}
"""


def calls(r):
    return readers(r) + file_writers(r) + writers(r) + string_writers(r)


def calls_source(r):
    """The calls of a long record, in a file of their own."""
    return f"""//! Deserialization and serialization of `{r.name}`.
ghost use Rattle.std.specs.Prelude.{{IfOk, IfErr}};

use super::{r.name};
use oci_base::Result;
use std::alloc::Global;
use std::io::{{Read, Write}};
use std::rt::Files;

impl {r.name} {{
{CALL_IMPORTS}{imported(f"{SHAPES}.specs.{r.name}", [r.word], True)}{imported(f"{r.book.crate}.specs.{r.name}", [f"{r.word}_plain"], True)}{calls(r)}}}
"""


def display(r):
    """Display as pretty JSON, made with the allocator of one of its fields."""
    return f"""
impl fmt::Display for {r.name} {{
    ghost use Rattle.std.specs.Prelude.{{OnOk}};
    ghost use Rattle.oci_model.specs.Value.{{value as json_of}};
    ghost use Rattle.oci_json.specs.Engines.{{DisplaysPretty}};
    ghost use Rattle.{SHAPES}.specs.{r.name}.{{{r.word}}};
    ghost use Rattle.{r.book.crate}.specs.{r.name}.{{{r.word}_plain}};

    /// Writes pretty JSON, which is allocated by the allocator of `{r.display.removesuffix("()")}`. Fails if an allocation or the formatter
    /// does. Ignores width and precision.
    fn fmt<W: fmt::Write>(&self, f: &mut fmt::Formatter<W>) -> fmt::Result
        ensures pretty {{ OnOk result (DisplaysPretty W.write_str_gives f.old (json_of {r.word} ({r.word}_plain self.now)) f.new) }}
    {{
        oci_json::display_pretty(self, *self.{r.display}.allocator(), f)
    }}
}}
"""
