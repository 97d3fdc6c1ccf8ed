/* Written by tools/gen header from crates/oci_ffi; do not edit.
 *
 * Ciderglen: canonical form and validation of the JSON documents of the Open Container Initiative, image references and
 * digests. Copyright of the Ciderglen authors, Apache-2.0.
 *
 * Each function
 * - returns a status (enum ciderglen_status) and keeps no state: any thread may call any function at any time;
 * - takes its input as a pointer and a length in bytes, with no zero byte behind it;
 * - writes its output to a buffer of the caller's, a pointer and a capacity in bytes, with no zero byte behind it, and returns
 *   the length of the output in `*output_len`. If the output does not fit, the status is CIDERGLEN_BUFFER_TOO_SMALL, the buffer
 *   is unchanged and `*output_len` is the capacity that is needed. After any other status but CIDERGLEN_DONE the buffer is
 *   unchanged and `*output_len` is 0. Bytes of the buffer behind the output are unchanged in any case;
 * - allocates with malloc, realloc and free of this process, frees all that it allocates before it returns, and returns
 *   CIDERGLEN_OUT_OF_MEMORY if an allocation fails. There is nothing for a caller to free.
 *
 * A list, which ciderglen_violations and ciderglen_broken_rules write, is fields, one behind the other to the end of the output. A
 * field is the length of a text in eight bytes, the lowest first, and the text, which is UTF-8 and may hold any character, zero bytes
 * and newlines, too. ciderglen_next_field steps through a list:
 *
 *     const uint8_t *cursor = buffer, *end = buffer + output_len;
 *     struct ciderglen_field pointer, expected;
 *     while (ciderglen_next_field(&cursor, end, &pointer) && ciderglen_next_field(&cursor, end, &expected)) { .. }
 *
 * A caller has to keep these rules, which nothing checks:
 * - no pointer is NULL, even if its length or capacity is 0;
 * - an output (buffer, `*output_len` and so on) overlaps neither the input nor another output, and no other thread uses it
 *   during the call;
 * - no length or capacity is above PTRDIFF_MAX;
 * - 256 KiB of stack are free at a call;
 * - no function is called from a signal handler, or in the forked child of a process with threads. */
#ifndef CIDERGLEN_H
#define CIDERGLEN_H

#include <stddef.h>
#include <stdint.h>

#ifdef __cplusplus
extern "C" {
#endif

/* The number of the interface that these functions have. It grows when one of them, a number or a structure changes its meaning. */
#define CIDERGLEN_INTERFACE 2

/* Statuses. */
enum ciderglen_status {
    /* Success. */
    CIDERGLEN_DONE = 0,
    /* The output does not fit into the buffer; its length is returned. */
    CIDERGLEN_BUFFER_TOO_SMALL = 1,
    /* Out of memory. */
    CIDERGLEN_OUT_OF_MEMORY = 2,
    /* The number is that of no kind of document. */
    CIDERGLEN_UNKNOWN_KIND = 3,
    /* The document is not JSON. */
    CIDERGLEN_INVALID_JSON = 4,
    /* The document is JSON that its schema does not allow, or that has no canonical form. */
    CIDERGLEN_INVALID_DOCUMENT = 5,
    /* The text is not UTF-8. */
    CIDERGLEN_INVALID_UTF8 = 6,
    /* The text is not a digest. */
    CIDERGLEN_INVALID_DIGEST = 7,
    /* The content has another size. */
    CIDERGLEN_OTHER_SIZE = 8,
    /* The content has another digest. */
    CIDERGLEN_OTHER_DIGEST = 9,
    /* The digest is by another algorithm than `sha256`, `sha384` and `sha512`. */
    CIDERGLEN_UNKNOWN_ALGORITHM = 10,
    /* The number is that of no level of rules. */
    CIDERGLEN_UNKNOWN_LEVEL = 11,
    /* The number is that of no platform. */
    CIDERGLEN_UNKNOWN_PLATFORM = 12,
    /* The text is not a reference: it is empty. */
    CIDERGLEN_NAME_EMPTY = 16,
    /* The text is not a reference: the repository has an uppercase letter. */
    CIDERGLEN_NAME_CONTAINS_UPPERCASE = 17,
    /* The text is not a reference: the repository is longer than 255 bytes. */
    CIDERGLEN_NAME_TOO_LONG = 18,
    /* Never returned: a tag outside the grammar is `CIDERGLEN_REFERENCE_INVALID_FORMAT`. */
    CIDERGLEN_TAG_INVALID_FORMAT = 19,
    /* Never returned: a digest outside the grammar is `CIDERGLEN_REFERENCE_INVALID_FORMAT`. */
    CIDERGLEN_DIGEST_INVALID_FORMAT = 20,
    /* The text is not a reference: the digest does not have the 64, 96 or 128 digits of its algorithm. */
    CIDERGLEN_DIGEST_INVALID_LENGTH = 21,
    /* The text is not a reference: the digest is by another algorithm than `sha256`, `sha384` and `sha512`. */
    CIDERGLEN_DIGEST_UNSUPPORTED = 22,
    /* The text is not a reference: it is outside the grammar. */
    CIDERGLEN_REFERENCE_INVALID_FORMAT = 23
};

/* Kinds of documents. */
enum ciderglen_kind {
    /* An image manifest. */
    CIDERGLEN_KIND_MANIFEST = 0,
    /* An image index. */
    CIDERGLEN_KIND_INDEX = 1,
    /* An image configuration. */
    CIDERGLEN_KIND_CONFIG = 2,
    /* An artifact manifest. */
    CIDERGLEN_KIND_ARTIFACT = 3,
    /* The marker of an image layout. */
    CIDERGLEN_KIND_LAYOUT = 4,
    /* A content descriptor. */
    CIDERGLEN_KIND_DESCRIPTOR = 5,
    /* The reply of a registry to a request that failed. */
    CIDERGLEN_KIND_ERROR = 6,
    /* A registry's list of repositories. */
    CIDERGLEN_KIND_REPOSITORIES = 7,
    /* A repository's list of tags. */
    CIDERGLEN_KIND_TAGS = 8,
    /* A reference to an image, in its parts. */
    CIDERGLEN_KIND_REFERENCE = 9,
    /* The configuration of a container. */
    CIDERGLEN_KIND_SPEC = 10,
    /* The state of a container. */
    CIDERGLEN_KIND_STATE = 11,
    /* What a seccomp listener receives. */
    CIDERGLEN_KIND_PROCESS_STATE = 12,
    /* The features of a runtime. */
    CIDERGLEN_KIND_FEATURES = 13
};

/* Levels of rules, each with those above it. */
enum ciderglen_level {
    /* MUST, MUST NOT, REQUIRED. */
    CIDERGLEN_LEVEL_MUST = 0,
    /* And formats, ranges and lists of values, without such a word. */
    CIDERGLEN_LEVEL_STATED = 1,
    /* And SHOULD, SHOULD NOT, RECOMMENDED, DEPRECATED. */
    CIDERGLEN_LEVEL_SHOULD = 2,
    /* And what no sentence of a specification asks: a manual page, the kernel or every runtime refuses it, or it is a hint. */
    CIDERGLEN_LEVEL_HOST = 3
};

/* Platforms. */
enum ciderglen_platform {
    /* The platform that the parts of the document say. */
    CIDERGLEN_PLATFORM_OF_DOCUMENT = 0,
    /* Linux. */
    CIDERGLEN_PLATFORM_LINUX = 1,
    /* Windows. */
    CIDERGLEN_PLATFORM_WINDOWS = 2,
    /* Solaris. */
    CIDERGLEN_PLATFORM_SOLARIS = 3,
    /* A virtual machine. */
    CIDERGLEN_PLATFORM_VM = 4,
    /* z/OS. */
    CIDERGLEN_PLATFORM_ZOS = 5,
    /* FreeBSD. */
    CIDERGLEN_PLATFORM_FREEBSD = 6
};

/* A text of a list, with no zero byte behind it. */
struct ciderglen_field {
    const uint8_t *text;
    size_t text_len;
};

/* Reads the field that begins at `*cursor`, and moves `*cursor` behind it. Returns 1, or 0 if no whole field stands there before
 * `end`: at the end of a list. Then nothing is changed. It reads nothing behind `end`, whatever the bytes are. */
static inline int ciderglen_next_field(const uint8_t **cursor, const uint8_t *end, struct ciderglen_field *field) {
    size_t left = (size_t)(end - *cursor);
    uint64_t text_len = 0;
    int i;
    if (left < 8) return 0;
    for (i = 7; i >= 0; i--) text_len = text_len << 8 | (*cursor)[i];
    if (text_len > left - 8) return 0;
    field->text = *cursor + 8;
    field->text_len = (size_t)text_len;
    *cursor = field->text + field->text_len;
    return 1;
}

/* Returns the number of the interface that the library was built with. Compare it with CIDERGLEN_INTERFACE of the header. */
uint32_t ciderglen_interface(void);

/* Writes the canonical form of a document as compact JSON: unknown members are left out, the others are in byte order of their
 * names.
 *
 * Returns CIDERGLEN_INVALID_JSON, CIDERGLEN_INVALID_DOCUMENT or CIDERGLEN_UNKNOWN_KIND if there is none. */
uint32_t ciderglen_normalize(uint32_t kind, const uint8_t *document, size_t document_len, uint8_t *buffer,
                             size_t buffer_capacity, size_t *output_len);

/* Writes the canonical form of a document as pretty JSON: a line for each member or item, indented by two spaces a level, and no
 * newline at the end.
 *
 * Returns the statuses of ciderglen_normalize. */
uint32_t ciderglen_pretty(uint32_t kind, const uint8_t *document, size_t document_len, uint8_t *buffer,
                          size_t buffer_capacity, size_t *output_len);

/* Writes the list of all violations of the schema in a document, in the order of the schema: of each the place as a JSON pointer
 * (RFC 6901), and what was expected there. Each of the two is a field, which ciderglen_next_field reads. Sets `*count` to the number
 * of violations, which is 0 exactly if the document is valid.
 *
 * Returns CIDERGLEN_INVALID_JSON or CIDERGLEN_UNKNOWN_KIND if the document has no violations to list. After any status but
 * CIDERGLEN_DONE and CIDERGLEN_BUFFER_TOO_SMALL `*count` is 0.
 *
 * Fields are UTF-8, and are not escaped: a name in a pointer is as the document has it, with any newline, NUL or escape sequence. */
uint32_t ciderglen_violations(uint32_t kind, const uint8_t *document, size_t document_len, uint8_t *buffer,
                              size_t buffer_capacity, size_t *output_len, size_t *count);

/* Writes the list of all parts of a document that break a rule of its kind, of the levels up to `level` and for the platform: of each
 * the place as a JSON pointer (RFC 6901), the name of the rule, the word of its level (must, stated, should or host), the section in
 * which it is stated, and what is wanted. Each of the five is a field, which ciderglen_next_field reads. Sets `*count` to the number
 * of parts, which is 0 exactly if every such rule is kept. That a document is valid is not asked here.
 *
 * Returns CIDERGLEN_INVALID_JSON, CIDERGLEN_UNKNOWN_KIND, CIDERGLEN_UNKNOWN_LEVEL or CIDERGLEN_UNKNOWN_PLATFORM if there is nothing
 * to list. After any status but CIDERGLEN_DONE and CIDERGLEN_BUFFER_TOO_SMALL `*count` is 0.
 *
 * Fields are UTF-8, and are not escaped: a name in a pointer is as the document has it, with any newline, NUL or escape sequence. */
uint32_t ciderglen_broken_rules(uint32_t kind, uint32_t level, uint32_t platform, const uint8_t *document,
                                size_t document_len, uint8_t *buffer, size_t buffer_capacity, size_t *output_len,
                                size_t *count);

/* Returns CIDERGLEN_DONE if the text is a digest (image specification, "Descriptor", "Digests"), else CIDERGLEN_INVALID_DIGEST, or
 * CIDERGLEN_INVALID_UTF8 if it is not UTF-8. Allocates nothing. */
uint32_t ciderglen_digest_check(const uint8_t *text, size_t text_len);

/* The lengths of a reference's parts in its whole text: the registry, `/` and the repository, `:` and the tag, `@` and the digest. A
 * missing part has length 0, and no mark before it. */
struct ciderglen_reference {
    size_t registry;
    size_t repository;
    size_t tag;
    size_t digest;
};

/* Parses a reference to an image, writes its whole text (`docker.io/library/busybox:latest` for `busybox`) and returns the lengths
 * of its parts in it.
 *
 * Returns CIDERGLEN_INVALID_UTF8, or a status from CIDERGLEN_NAME_EMPTY up, if the text is not a reference. After any status but
 * CIDERGLEN_DONE and CIDERGLEN_BUFFER_TOO_SMALL the lengths are unspecified. */
uint32_t ciderglen_reference(const uint8_t *text, size_t text_len, uint8_t *buffer, size_t buffer_capacity,
                             size_t *output_len, struct ciderglen_reference *parts);

/* Parses a reference to an image and writes the registry that it is pulled from: `index.docker.io` in place of `docker.io`.
 *
 * Returns the statuses of ciderglen_reference. */
uint32_t ciderglen_resolve_registry(const uint8_t *text, size_t text_len, uint8_t *buffer, size_t buffer_capacity,
                                    size_t *output_len);

/* Parses a reference to an image and a descriptor (as JSON), and writes the whole text of the reference with the descriptor's digest
 * in place of its tag and digest.
 *
 * Returns CIDERGLEN_INVALID_UTF8, or a status from CIDERGLEN_NAME_EMPTY up, if the text is not a reference; then the descriptor is
 * not read. Returns CIDERGLEN_INVALID_JSON or CIDERGLEN_INVALID_DOCUMENT if there is no descriptor. */
uint32_t ciderglen_pin(const uint8_t *text, size_t text_len, const uint8_t *json, size_t json_len, uint8_t *buffer,
                       size_t buffer_capacity, size_t *output_len);

/* Compares a content with the digest and the size that a descriptor says of it (image specification, "Content Descriptors",
 * "Verification"). Returns CIDERGLEN_DONE if it has both, CIDERGLEN_OTHER_SIZE or CIDERGLEN_OTHER_DIGEST if it has another, and
 * CIDERGLEN_UNKNOWN_ALGORITHM if the digest is by none of sha256, sha384 and sha512. Returns CIDERGLEN_INVALID_DIGEST if the text is
 * not a digest, or CIDERGLEN_INVALID_UTF8 if it is not UTF-8. Allocates nothing. */
uint32_t ciderglen_verify(const uint8_t *digest, size_t digest_len, uint64_t size, const uint8_t *content,
                          size_t content_len);

#ifdef __cplusplus
}
#endif

#endif
