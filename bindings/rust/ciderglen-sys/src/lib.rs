//! Declarations of Ciderglen's library for C, as `ciderglen.h` has them, which says what each call does and what a caller owes. The
//! crate `ciderglen` has safe calls.
#![no_std]
#![allow(non_camel_case_types)]

/// The interface that these declarations are for; compare it with [`ciderglen_interface`].
pub const CIDERGLEN_INTERFACE: u32 = 2;

pub const CIDERGLEN_DONE: u32 = 0;
pub const CIDERGLEN_BUFFER_TOO_SMALL: u32 = 1;
pub const CIDERGLEN_OUT_OF_MEMORY: u32 = 2;
pub const CIDERGLEN_UNKNOWN_KIND: u32 = 3;
pub const CIDERGLEN_INVALID_JSON: u32 = 4;
pub const CIDERGLEN_INVALID_DOCUMENT: u32 = 5;
pub const CIDERGLEN_INVALID_UTF8: u32 = 6;
pub const CIDERGLEN_INVALID_DIGEST: u32 = 7;
pub const CIDERGLEN_OTHER_SIZE: u32 = 8;
pub const CIDERGLEN_OTHER_DIGEST: u32 = 9;
pub const CIDERGLEN_UNKNOWN_ALGORITHM: u32 = 10;
pub const CIDERGLEN_UNKNOWN_LEVEL: u32 = 11;
pub const CIDERGLEN_UNKNOWN_PLATFORM: u32 = 12;
pub const CIDERGLEN_NAME_EMPTY: u32 = 16;
pub const CIDERGLEN_NAME_CONTAINS_UPPERCASE: u32 = 17;
pub const CIDERGLEN_NAME_TOO_LONG: u32 = 18;
pub const CIDERGLEN_TAG_INVALID_FORMAT: u32 = 19;
pub const CIDERGLEN_DIGEST_INVALID_FORMAT: u32 = 20;
pub const CIDERGLEN_DIGEST_INVALID_LENGTH: u32 = 21;
pub const CIDERGLEN_DIGEST_UNSUPPORTED: u32 = 22;
pub const CIDERGLEN_REFERENCE_INVALID_FORMAT: u32 = 23;

pub const CIDERGLEN_KIND_MANIFEST: u32 = 0;
pub const CIDERGLEN_KIND_INDEX: u32 = 1;
pub const CIDERGLEN_KIND_CONFIG: u32 = 2;
pub const CIDERGLEN_KIND_ARTIFACT: u32 = 3;
pub const CIDERGLEN_KIND_LAYOUT: u32 = 4;
pub const CIDERGLEN_KIND_DESCRIPTOR: u32 = 5;
pub const CIDERGLEN_KIND_ERROR: u32 = 6;
pub const CIDERGLEN_KIND_REPOSITORIES: u32 = 7;
pub const CIDERGLEN_KIND_TAGS: u32 = 8;
pub const CIDERGLEN_KIND_REFERENCE: u32 = 9;
pub const CIDERGLEN_KIND_SPEC: u32 = 10;
pub const CIDERGLEN_KIND_STATE: u32 = 11;
pub const CIDERGLEN_KIND_PROCESS_STATE: u32 = 12;
pub const CIDERGLEN_KIND_FEATURES: u32 = 13;

pub const CIDERGLEN_LEVEL_MUST: u32 = 0;
pub const CIDERGLEN_LEVEL_STATED: u32 = 1;
pub const CIDERGLEN_LEVEL_SHOULD: u32 = 2;
pub const CIDERGLEN_LEVEL_HOST: u32 = 3;

pub const CIDERGLEN_PLATFORM_OF_DOCUMENT: u32 = 0;
pub const CIDERGLEN_PLATFORM_LINUX: u32 = 1;
pub const CIDERGLEN_PLATFORM_WINDOWS: u32 = 2;
pub const CIDERGLEN_PLATFORM_SOLARIS: u32 = 3;
pub const CIDERGLEN_PLATFORM_VM: u32 = 4;
pub const CIDERGLEN_PLATFORM_ZOS: u32 = 5;
pub const CIDERGLEN_PLATFORM_FREEBSD: u32 = 6;

/// The lengths of a reference's parts in its whole text.
#[repr(C)]
#[derive(Clone, Copy, Debug, Default, PartialEq, Eq, Hash)]
pub struct ciderglen_reference_parts {
    pub registry: usize,
    pub repository: usize,
    pub tag: usize,
    pub digest: usize,
}

extern "C" {
    pub fn ciderglen_interface() -> u32;
    pub fn ciderglen_normalize(
        kind: u32,
        document: *const u8,
        document_len: usize,
        buffer: *mut u8,
        buffer_capacity: usize,
        output_len: *mut usize,
    ) -> u32;
    pub fn ciderglen_pretty(
        kind: u32,
        document: *const u8,
        document_len: usize,
        buffer: *mut u8,
        buffer_capacity: usize,
        output_len: *mut usize,
    ) -> u32;
    pub fn ciderglen_violations(
        kind: u32,
        document: *const u8,
        document_len: usize,
        buffer: *mut u8,
        buffer_capacity: usize,
        output_len: *mut usize,
        count: *mut usize,
    ) -> u32;
    pub fn ciderglen_broken_rules(
        kind: u32,
        level: u32,
        platform: u32,
        document: *const u8,
        document_len: usize,
        buffer: *mut u8,
        buffer_capacity: usize,
        output_len: *mut usize,
        count: *mut usize,
    ) -> u32;
    pub fn ciderglen_digest_check(text: *const u8, text_len: usize) -> u32;
    pub fn ciderglen_reference(
        text: *const u8,
        text_len: usize,
        buffer: *mut u8,
        buffer_capacity: usize,
        output_len: *mut usize,
        parts: *mut ciderglen_reference_parts,
    ) -> u32;
    pub fn ciderglen_resolve_registry(
        text: *const u8,
        text_len: usize,
        buffer: *mut u8,
        buffer_capacity: usize,
        output_len: *mut usize,
    ) -> u32;
    pub fn ciderglen_pin(
        text: *const u8,
        text_len: usize,
        json: *const u8,
        json_len: usize,
        buffer: *mut u8,
        buffer_capacity: usize,
        output_len: *mut usize,
    ) -> u32;
    pub fn ciderglen_verify(
        digest: *const u8,
        digest_len: usize,
        size: u64,
        content: *const u8,
        content_len: usize,
    ) -> u32;
}
