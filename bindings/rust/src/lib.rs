//! Canonical form and validation of the JSON documents of the Open Container Initiative, image references and digests, by the
//! formally verified library Ciderglen.
//!
//! ```
//! use ciderglen::{normalize, Kind, Reference};
//!
//! let document = br#"{"note":null, "imageLayoutVersion":"1.0.0"}"#;
//! assert_eq!(normalize(Kind::Layout, document)?, br#"{"imageLayoutVersion":"1.0.0"}"#);
//!
//! let reference = Reference::parse("busybox")?;
//! assert_eq!(reference.as_str(), "docker.io/library/busybox:latest");
//! # Ok::<(), ciderglen::Error>(())
//! ```
//!
//! The static library `libciderglen.a` is linked: from the folder that `CIDERGLEN_LIB_DIR` names, or else where pkg-config finds it, or
//! in `/usr/local/lib`. All calls may be made from any thread.

use ciderglen_sys as sys;
use std::fmt::{self, Write};

/// A kind of document.
#[derive(Clone, Copy, Debug, PartialEq, Eq, Hash)]
#[repr(u32)]
#[non_exhaustive]
pub enum Kind {
    /// An image manifest.
    Manifest = sys::CIDERGLEN_KIND_MANIFEST,
    /// An image index.
    Index = sys::CIDERGLEN_KIND_INDEX,
    /// An image configuration.
    Config = sys::CIDERGLEN_KIND_CONFIG,
    /// An artifact manifest.
    Artifact = sys::CIDERGLEN_KIND_ARTIFACT,
    /// The marker of an image layout.
    Layout = sys::CIDERGLEN_KIND_LAYOUT,
    /// A content descriptor.
    Descriptor = sys::CIDERGLEN_KIND_DESCRIPTOR,
    /// The reply of a registry to a request that failed.
    Error = sys::CIDERGLEN_KIND_ERROR,
    /// A registry's list of repositories.
    Repositories = sys::CIDERGLEN_KIND_REPOSITORIES,
    /// A repository's list of tags.
    Tags = sys::CIDERGLEN_KIND_TAGS,
    /// A reference to an image, in its parts.
    Reference = sys::CIDERGLEN_KIND_REFERENCE,
    /// The configuration of a container.
    Spec = sys::CIDERGLEN_KIND_SPEC,
    /// The state of a container.
    State = sys::CIDERGLEN_KIND_STATE,
    /// What a seccomp listener receives.
    ProcessState = sys::CIDERGLEN_KIND_PROCESS_STATE,
    /// The features of a runtime.
    Features = sys::CIDERGLEN_KIND_FEATURES,
}

impl Kind {
    /// All kinds, in the order of their numbers.
    pub const ALL: [Kind; 14] = [
        Kind::Manifest,
        Kind::Index,
        Kind::Config,
        Kind::Artifact,
        Kind::Layout,
        Kind::Descriptor,
        Kind::Error,
        Kind::Repositories,
        Kind::Tags,
        Kind::Reference,
        Kind::Spec,
        Kind::State,
        Kind::ProcessState,
        Kind::Features,
    ];
}

/// A level of rules, which stands for those above it, too.
#[derive(Clone, Copy, Debug, PartialEq, Eq, Hash)]
#[repr(u32)]
pub enum Level {
    /// MUST, MUST NOT, REQUIRED.
    Must = sys::CIDERGLEN_LEVEL_MUST,
    /// And formats, ranges and lists of values, without such a word.
    Stated = sys::CIDERGLEN_LEVEL_STATED,
    /// And SHOULD, SHOULD NOT, RECOMMENDED, DEPRECATED.
    Should = sys::CIDERGLEN_LEVEL_SHOULD,
    /// And what no specification asks, but the kernel or every runtime refuses.
    Host = sys::CIDERGLEN_LEVEL_HOST,
}

/// A platform that a document is for.
#[derive(Clone, Copy, Debug, PartialEq, Eq, Hash)]
#[repr(u32)]
#[non_exhaustive]
pub enum Platform {
    /// The platform that the parts of the document say.
    OfDocument = sys::CIDERGLEN_PLATFORM_OF_DOCUMENT,
    /// Linux.
    Linux = sys::CIDERGLEN_PLATFORM_LINUX,
    /// Windows.
    Windows = sys::CIDERGLEN_PLATFORM_WINDOWS,
    /// Solaris.
    Solaris = sys::CIDERGLEN_PLATFORM_SOLARIS,
    /// A virtual machine.
    Vm = sys::CIDERGLEN_PLATFORM_VM,
    /// z/OS.
    Zos = sys::CIDERGLEN_PLATFORM_ZOS,
    /// FreeBSD.
    FreeBsd = sys::CIDERGLEN_PLATFORM_FREEBSD,
}

/// Why a call failed.
#[derive(Clone, Copy, Debug, PartialEq, Eq, Hash)]
#[non_exhaustive]
pub enum Error {
    /// Out of memory.
    OutOfMemory,
    /// The document is not JSON.
    InvalidJson,
    /// The document is JSON that its schema does not allow, or that has no canonical form.
    InvalidDocument,
    /// The text is not UTF-8.
    InvalidUtf8,
    /// The text is not a digest.
    InvalidDigest,
    /// The content has another size.
    OtherSize,
    /// The content has another digest.
    OtherDigest,
    /// The digest is by another algorithm than `sha256`, `sha384` and `sha512`.
    UnknownAlgorithm,
    /// The text is not a reference: it is empty.
    NameEmpty,
    /// The text is not a reference: the repository has an uppercase letter.
    NameContainsUppercase,
    /// The text is not a reference: the repository is longer than 255 bytes.
    NameTooLong,
    /// The text is not a reference: the digest does not have the digits of its algorithm.
    DigestInvalidLength,
    /// The text is not a reference: the digest is by another algorithm than `sha256`, `sha384` and `sha512`.
    DigestUnsupported,
    /// The text is not a reference: it is outside the grammar.
    ReferenceInvalidFormat,
    /// A status that this crate does not know.
    Other(u32),
}

impl Error {
    fn of(status: u32) -> Error {
        match status {
            sys::CIDERGLEN_OUT_OF_MEMORY => Error::OutOfMemory,
            sys::CIDERGLEN_INVALID_JSON => Error::InvalidJson,
            sys::CIDERGLEN_INVALID_DOCUMENT => Error::InvalidDocument,
            sys::CIDERGLEN_INVALID_UTF8 => Error::InvalidUtf8,
            sys::CIDERGLEN_INVALID_DIGEST => Error::InvalidDigest,
            sys::CIDERGLEN_OTHER_SIZE => Error::OtherSize,
            sys::CIDERGLEN_OTHER_DIGEST => Error::OtherDigest,
            sys::CIDERGLEN_UNKNOWN_ALGORITHM => Error::UnknownAlgorithm,
            sys::CIDERGLEN_NAME_EMPTY => Error::NameEmpty,
            sys::CIDERGLEN_NAME_CONTAINS_UPPERCASE => Error::NameContainsUppercase,
            sys::CIDERGLEN_NAME_TOO_LONG => Error::NameTooLong,
            sys::CIDERGLEN_DIGEST_INVALID_LENGTH => Error::DigestInvalidLength,
            sys::CIDERGLEN_DIGEST_UNSUPPORTED => Error::DigestUnsupported,
            sys::CIDERGLEN_REFERENCE_INVALID_FORMAT => Error::ReferenceInvalidFormat,
            other => Error::Other(other),
        }
    }
}

impl fmt::Display for Error {
    fn fmt(&self, f: &mut fmt::Formatter<'_>) -> fmt::Result {
        f.write_str(match self {
            Error::OutOfMemory => "out of memory",
            Error::InvalidJson => "invalid JSON",
            Error::InvalidDocument => "document not allowed by its schema",
            Error::InvalidUtf8 => "invalid UTF-8",
            Error::InvalidDigest => "invalid digest",
            Error::OtherSize => "content of another size",
            Error::OtherDigest => "content of another digest",
            Error::UnknownAlgorithm => "unknown digest algorithm",
            Error::NameEmpty => "repository name must have at least one component",
            Error::NameContainsUppercase => "repository name must be lowercase",
            Error::NameTooLong => "repository name must not be more than 255 characters",
            Error::DigestInvalidLength => "invalid checksum digest length",
            Error::DigestUnsupported => "unsupported digest algorithm",
            Error::ReferenceInvalidFormat => "invalid reference format",
            Error::Other(status) => return write!(f, "status {status}"),
        })
    }
}

impl std::error::Error for Error {}

/// Calls with a buffer of the first capacity, and again with the capacity that is needed.
fn output(
    mut capacity: usize,
    mut call: impl FnMut(*mut u8, usize, *mut usize) -> u32,
) -> Result<Vec<u8>, Error> {
    loop {
        let mut buffer: Vec<u8> = Vec::new();
        buffer
            .try_reserve_exact(capacity)
            .map_err(|_| Error::OutOfMemory)?;
        buffer.resize(capacity, 0);
        let mut len = 0;
        match call(buffer.as_mut_ptr(), capacity, &mut len) {
            sys::CIDERGLEN_DONE => {
                buffer.truncate(len);
                return Ok(buffer);
            }
            sys::CIDERGLEN_BUFFER_TOO_SMALL => capacity = len,
            status => return Err(Error::of(status)),
        }
    }
}

fn text(bytes: Vec<u8>) -> Result<String, Error> {
    String::from_utf8(bytes).map_err(|_| Error::InvalidUtf8)
}

/// Returns the canonical form of a document as compact JSON: unknown members are left out, the others are in byte order of their
/// names. It has another digest than the document.
///
/// # Errors
///
/// `InvalidJson` or `InvalidDocument` if there is none, and `OutOfMemory`.
pub fn normalize(kind: Kind, document: &[u8]) -> Result<Vec<u8>, Error> {
    // SAFETY: the pointers are those of slices with these lengths, not null where they are empty, too, and the outputs overlap nothing.
    output(document.len() + 64, |buffer, capacity, len| unsafe {
        sys::ciderglen_normalize(
            kind as u32,
            document.as_ptr(),
            document.len(),
            buffer,
            capacity,
            len,
        )
    })
}

/// Returns the canonical form of a document as JSON that is indented by two spaces a level, with no newline at the end.
///
/// # Errors
///
/// Those of [`normalize`].
pub fn normalize_pretty(kind: Kind, document: &[u8]) -> Result<Vec<u8>, Error> {
    // SAFETY: as in `normalize`.
    output(
        document.len().saturating_mul(2) + 64,
        |buffer, capacity, len| unsafe {
            sys::ciderglen_pretty(
                kind as u32,
                document.as_ptr(),
                document.len(),
                buffer,
                capacity,
                len,
            )
        },
    )
}

/// A violation of a schema. Its texts are as the document and the schema have them.
///
/// It displays as the pointer, a colon, a space and what was expected, on one line: a backslash, and what
/// [`char::escape_debug`] escapes, such as control characters, U+2028 and the bidirectional controls, but no quotation mark, are
/// escaped.
#[derive(Clone, Debug, PartialEq, Eq, Hash)]
pub struct Violation {
    /// The place, as a JSON pointer (RFC 6901).
    pub pointer: String,
    /// What was expected there.
    pub expected: String,
}

impl fmt::Display for Violation {
    fn fmt(&self, f: &mut fmt::Formatter<'_>) -> fmt::Result {
        write!(f, "{}: {}", Shown(&self.pointer), Shown(&self.expected))
    }
}

/// A part of a document that breaks a rule. Its texts are as the document and the rule have them.
///
/// It displays as the pointer, a colon, a space, the rule, in parentheses its level and section, a colon, a space and what is wanted,
/// escaped as a [`Violation`] is.
#[derive(Clone, Debug, PartialEq, Eq, Hash)]
pub struct BrokenRule {
    /// The part's place, as a JSON pointer (RFC 6901).
    pub pointer: String,
    /// The name of the rule.
    pub rule: String,
    /// Its level: must, stated, should or host.
    pub level: String,
    /// Where it is stated.
    pub section: String,
    /// What it wants.
    pub wanted: String,
}

impl fmt::Display for BrokenRule {
    fn fmt(&self, f: &mut fmt::Formatter<'_>) -> fmt::Result {
        let (pointer, rule) = (Shown(&self.pointer), Shown(&self.rule));
        let (level, section) = (Shown(&self.level), Shown(&self.section));
        let wanted = Shown(&self.wanted);
        write!(f, "{pointer}: {rule} ({level}, {section}): {wanted}")
    }
}

/// A text on one line.
struct Shown<'a>(&'a str);

impl fmt::Display for Shown<'_> {
    fn fmt(&self, f: &mut fmt::Formatter<'_>) -> fmt::Result {
        self.0.chars().try_for_each(|it| match it {
            '"' | '\'' => f.write_char(it),
            _ => write!(f, "{}", it.escape_debug()),
        })
    }
}

/// The texts of a list: before each stands its length in eight bytes, the lowest first.
fn fields(mut list: &[u8]) -> Result<Vec<String>, Error> {
    let mut texts = Vec::new();
    while !list.is_empty() {
        let (begin, rest) = list.split_at(8);
        let mut len = [0; 8];
        len.copy_from_slice(begin);
        let (field, behind) = rest.split_at(u64::from_le_bytes(len) as usize);
        texts.push(text(field.to_vec())?);
        list = behind;
    }
    Ok(texts)
}

/// Returns all violations of the schema in a document, in the order of the schema: none exactly if the document is valid.
///
/// # Errors
///
/// `InvalidJson` if the document is not JSON, and `OutOfMemory`.
pub fn violations(kind: Kind, document: &[u8]) -> Result<Vec<Violation>, Error> {
    let mut count = 0;
    // SAFETY: as in `normalize`.
    let list = output(256, |buffer, capacity, len| unsafe {
        sys::ciderglen_violations(
            kind as u32,
            document.as_ptr(),
            document.len(),
            buffer,
            capacity,
            len,
            &mut count,
        )
    })?;
    let (mut texts, mut found) = (fields(&list)?.into_iter(), Vec::new());
    while let (Some(pointer), Some(expected)) = (texts.next(), texts.next()) {
        found.push(Violation { pointer, expected });
    }
    Ok(found)
}

/// Returns what of a document breaks rules of its kind, of the levels up to the one and for the platform: nothing exactly if every
/// such rule is kept.
///
/// # Errors
///
/// `InvalidJson` if the document is not JSON, and `OutOfMemory`.
pub fn broken_rules(
    kind: Kind,
    level: Level,
    platform: Platform,
    document: &[u8],
) -> Result<Vec<BrokenRule>, Error> {
    let mut count = 0;
    // SAFETY: as in `normalize`.
    let list = output(1024, |buffer, capacity, len| unsafe {
        sys::ciderglen_broken_rules(
            kind as u32,
            level as u32,
            platform as u32,
            document.as_ptr(),
            document.len(),
            buffer,
            capacity,
            len,
            &mut count,
        )
    })?;
    let (mut texts, mut found) = (fields(&list)?.into_iter(), Vec::new());
    while let (Some(pointer), Some(rule), Some(level), Some(section), Some(wanted)) = (
        texts.next(),
        texts.next(),
        texts.next(),
        texts.next(),
        texts.next(),
    ) {
        found.push(BrokenRule {
            pointer,
            rule,
            level,
            section,
            wanted,
        });
    }
    Ok(found)
}

/// A reference to an image.
#[derive(Clone, Debug, PartialEq, Eq, Hash)]
pub struct Reference {
    whole: String,
    parts: sys::ciderglen_reference_parts,
}

impl Reference {
    /// Parses a reference: `busybox` is `docker.io/library/busybox:latest`.
    ///
    /// # Errors
    ///
    /// Why the text is not a reference, and `OutOfMemory`.
    pub fn parse(text: &str) -> Result<Reference, Error> {
        let mut parts = sys::ciderglen_reference_parts::default();
        // SAFETY: as in `normalize`.
        let whole = output(text.len() + 32, |buffer, capacity, len| unsafe {
            sys::ciderglen_reference(text.as_ptr(), text.len(), buffer, capacity, len, &mut parts)
        })?;
        Ok(Reference {
            whole: self::text(whole)?,
            parts,
        })
    }

    /// The whole text of the reference.
    pub fn as_str(&self) -> &str {
        &self.whole
    }

    /// The registry.
    pub fn registry(&self) -> &str {
        &self.whole[..self.parts.registry]
    }

    /// The repository.
    pub fn repository(&self) -> &str {
        let at = self.parts.registry + 1;
        &self.whole[at..at + self.parts.repository]
    }

    /// The tag, if there is one.
    pub fn tag(&self) -> Option<&str> {
        let at = self.parts.registry + self.parts.repository + 2;
        (self.parts.tag > 0).then(|| &self.whole[at..at + self.parts.tag])
    }

    /// The digest, if there is one.
    pub fn digest(&self) -> Option<&str> {
        (self.parts.digest > 0).then(|| &self.whole[self.whole.len() - self.parts.digest..])
    }
}

impl fmt::Display for Reference {
    fn fmt(&self, f: &mut fmt::Formatter<'_>) -> fmt::Result {
        f.write_str(&self.whole)
    }
}

impl std::str::FromStr for Reference {
    type Err = Error;

    fn from_str(text: &str) -> Result<Reference, Error> {
        Reference::parse(text)
    }
}

/// Returns the registry that a reference is pulled from: `index.docker.io` in place of `docker.io`.
///
/// # Errors
///
/// Those of [`Reference::parse`].
pub fn resolve_registry(reference: &str) -> Result<String, Error> {
    // SAFETY: as in `normalize`.
    text(output(
        reference.len() + 32,
        |buffer, capacity, len| unsafe {
            sys::ciderglen_resolve_registry(
                reference.as_ptr(),
                reference.len(),
                buffer,
                capacity,
                len,
            )
        },
    )?)
}

/// Returns the whole text of a reference with the digest of a descriptor, which is JSON, in place of its tag and digest.
///
/// # Errors
///
/// Those of [`Reference::parse`], and `InvalidJson` or `InvalidDocument` if there is no descriptor.
pub fn pin(reference: &str, descriptor: &[u8]) -> Result<String, Error> {
    // SAFETY: as in `normalize`.
    text(output(
        reference.len() + 128,
        |buffer, capacity, len| unsafe {
            sys::ciderglen_pin(
                reference.as_ptr(),
                reference.len(),
                descriptor.as_ptr(),
                descriptor.len(),
                buffer,
                capacity,
                len,
            )
        },
    )?)
}

/// Returns whether the text is a digest.
pub fn is_digest(text: &str) -> bool {
    // SAFETY: the pointer is that of a slice with this length.
    unsafe { sys::ciderglen_digest_check(text.as_ptr(), text.len()) == sys::CIDERGLEN_DONE }
}

/// Compares a content with the digest and the size that a descriptor says of it.
///
/// # Errors
///
/// `OtherSize` or `OtherDigest` if it has another, `UnknownAlgorithm` if the digest is by none of `sha256`, `sha384` and `sha512`, and
/// `InvalidDigest` if the text is not a digest.
pub fn verify(digest: &str, size: u64, content: &[u8]) -> Result<(), Error> {
    // SAFETY: the pointers are those of slices with these lengths, not null where they are empty, too.
    let status = unsafe {
        sys::ciderglen_verify(
            digest.as_ptr(),
            digest.len(),
            size,
            content.as_ptr(),
            content.len(),
        )
    };
    match status {
        sys::CIDERGLEN_DONE => Ok(()),
        status => Err(Error::of(status)),
    }
}
