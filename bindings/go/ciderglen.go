// Package ciderglen normalizes and validates the JSON documents of the Open Container Initiative, and parses image references and
// digests. It calls the static library of Ciderglen, whose functions are formally verified.
//
// The package needs cgo, the header ciderglen.h and the archive libciderglen.a. Where they are not installed below /usr or
// /usr/local, CGO_CFLAGS and CGO_LDFLAGS name their folders:
//
//	CGO_CFLAGS=-I$HOME/ciderglen/include CGO_LDFLAGS=-L$HOME/ciderglen/lib go build ./...
//
// All functions may be called from any goroutine at any time.
package ciderglen

/*
#cgo LDFLAGS: -l:libciderglen.a
#include <ciderglen.h>

#if CIDERGLEN_INTERFACE != 2
#error "this package is for interface 2 of ciderglen.h"
#endif
*/
import "C"

import (
	"encoding/binary"
	"fmt"
	"strconv"
	"strings"
	"unsafe"
)

// Kind is a kind of document.
type Kind uint32

// The kinds of documents.
const (
	Manifest     Kind = C.CIDERGLEN_KIND_MANIFEST      // an image manifest
	Index        Kind = C.CIDERGLEN_KIND_INDEX         // an image index
	Config       Kind = C.CIDERGLEN_KIND_CONFIG        // an image configuration
	Artifact     Kind = C.CIDERGLEN_KIND_ARTIFACT      // an artifact manifest
	Layout       Kind = C.CIDERGLEN_KIND_LAYOUT        // the marker of an image layout
	Descriptor   Kind = C.CIDERGLEN_KIND_DESCRIPTOR    // a content descriptor
	ErrorReply   Kind = C.CIDERGLEN_KIND_ERROR         // the reply of a registry to a request that failed
	Repositories Kind = C.CIDERGLEN_KIND_REPOSITORIES  // a registry's list of repositories
	Tags         Kind = C.CIDERGLEN_KIND_TAGS          // a repository's list of tags
	ImageName    Kind = C.CIDERGLEN_KIND_REFERENCE     // a reference to an image, in its parts
	Spec         Kind = C.CIDERGLEN_KIND_SPEC          // the configuration of a container
	State        Kind = C.CIDERGLEN_KIND_STATE         // the state of a container
	ProcessState Kind = C.CIDERGLEN_KIND_PROCESS_STATE // what a seccomp listener receives
	Features     Kind = C.CIDERGLEN_KIND_FEATURES      // the features of a runtime
)

// Level is a level of rules, which stands for those above it, too.
type Level uint32

// The levels of rules.
const (
	Must   Level = C.CIDERGLEN_LEVEL_MUST   // MUST, MUST NOT, REQUIRED
	Stated Level = C.CIDERGLEN_LEVEL_STATED // and formats, ranges and lists of values, without such a word
	Should Level = C.CIDERGLEN_LEVEL_SHOULD // and SHOULD, SHOULD NOT, RECOMMENDED, DEPRECATED
	Host   Level = C.CIDERGLEN_LEVEL_HOST   // and what no specification asks, but the kernel or every runtime refuses
)

// Platform is a platform that a document is for.
type Platform uint32

// The platforms.
const (
	OfDocument Platform = C.CIDERGLEN_PLATFORM_OF_DOCUMENT // the platform that the parts of the document say
	Linux      Platform = C.CIDERGLEN_PLATFORM_LINUX
	Windows    Platform = C.CIDERGLEN_PLATFORM_WINDOWS
	Solaris    Platform = C.CIDERGLEN_PLATFORM_SOLARIS
	VM         Platform = C.CIDERGLEN_PLATFORM_VM
	ZOS        Platform = C.CIDERGLEN_PLATFORM_ZOS
	FreeBSD    Platform = C.CIDERGLEN_PLATFORM_FREEBSD
)

// Error is why a call failed. Errors are compared with ==, or with errors.Is.
type Error uint32

// The errors.
const (
	ErrOutOfMemory            Error = C.CIDERGLEN_OUT_OF_MEMORY
	ErrUnknownKind            Error = C.CIDERGLEN_UNKNOWN_KIND
	ErrInvalidJSON            Error = C.CIDERGLEN_INVALID_JSON
	ErrInvalidDocument        Error = C.CIDERGLEN_INVALID_DOCUMENT
	ErrInvalidUTF8            Error = C.CIDERGLEN_INVALID_UTF8
	ErrInvalidDigest          Error = C.CIDERGLEN_INVALID_DIGEST
	ErrOtherSize              Error = C.CIDERGLEN_OTHER_SIZE
	ErrOtherDigest            Error = C.CIDERGLEN_OTHER_DIGEST
	ErrUnknownAlgorithm       Error = C.CIDERGLEN_UNKNOWN_ALGORITHM
	ErrUnknownLevel           Error = C.CIDERGLEN_UNKNOWN_LEVEL
	ErrUnknownPlatform        Error = C.CIDERGLEN_UNKNOWN_PLATFORM
	ErrNameEmpty              Error = C.CIDERGLEN_NAME_EMPTY
	ErrNameContainsUppercase  Error = C.CIDERGLEN_NAME_CONTAINS_UPPERCASE
	ErrNameTooLong            Error = C.CIDERGLEN_NAME_TOO_LONG
	ErrDigestInvalidLength    Error = C.CIDERGLEN_DIGEST_INVALID_LENGTH
	ErrDigestUnsupported      Error = C.CIDERGLEN_DIGEST_UNSUPPORTED
	ErrReferenceInvalidFormat Error = C.CIDERGLEN_REFERENCE_INVALID_FORMAT
)

var messages = map[Error]string{
	ErrOutOfMemory:            "out of memory",
	ErrUnknownKind:            "unknown kind of document",
	ErrInvalidJSON:            "invalid JSON",
	ErrInvalidDocument:        "document not allowed by its schema",
	ErrInvalidUTF8:            "invalid UTF-8",
	ErrInvalidDigest:          "invalid digest",
	ErrOtherSize:              "content of another size",
	ErrOtherDigest:            "content of another digest",
	ErrUnknownAlgorithm:       "unknown digest algorithm",
	ErrUnknownLevel:           "unknown level of rules",
	ErrUnknownPlatform:        "unknown platform",
	ErrNameEmpty:              "repository name must have at least one component",
	ErrNameContainsUppercase:  "repository name must be lowercase",
	ErrNameTooLong:            "repository name must not be more than 255 characters",
	ErrDigestInvalidLength:    "invalid checksum digest length",
	ErrDigestUnsupported:      "unsupported digest algorithm",
	ErrReferenceInvalidFormat: "invalid reference format",
}

// Error returns a message.
func (e Error) Error() string {
	if message, ok := messages[e]; ok {
		return "ciderglen: " + message
	}
	return fmt.Sprintf("ciderglen: status %d", uint32(e))
}

// pointer returns the address of the bytes, and one that is not NULL where there are none.
func pointer(bytes []byte) *C.uint8_t {
	if len(bytes) == 0 {
		return (*C.uint8_t)(unsafe.Pointer(new(byte)))
	}
	return (*C.uint8_t)(unsafe.Pointer(&bytes[0]))
}

// output calls with a buffer of the first capacity, and again with the capacity that is needed.
func output(capacity int, call func(buffer *C.uint8_t, capacity C.size_t, length *C.size_t) C.uint32_t) ([]byte, error) {
	for {
		var length C.size_t
		buffer := make([]byte, capacity)
		switch status := call(pointer(buffer), C.size_t(capacity), &length); status {
		case C.CIDERGLEN_DONE:
			return buffer[:length], nil
		case C.CIDERGLEN_BUFFER_TOO_SMALL:
			capacity = int(length)
		default:
			return nil, Error(status)
		}
	}
}

// Normalize returns the canonical form of a document as compact JSON: unknown members are left out, the others are in byte order
// of their names. It has another digest than the document. The error is ErrInvalidJSON, ErrInvalidDocument, ErrUnknownKind or
// ErrOutOfMemory.
func Normalize(kind Kind, document []byte) ([]byte, error) {
	return output(len(document)+64, func(buffer *C.uint8_t, capacity C.size_t, length *C.size_t) C.uint32_t {
		return C.ciderglen_normalize(C.uint32_t(kind), pointer(document), C.size_t(len(document)), buffer, capacity, length)
	})
}

// Pretty returns the canonical form of a document as JSON that is indented by two spaces a level, with no newline at the end. It
// fails as Normalize does.
func Pretty(kind Kind, document []byte) ([]byte, error) {
	return output(2*len(document)+64, func(buffer *C.uint8_t, capacity C.size_t, length *C.size_t) C.uint32_t {
		return C.ciderglen_pretty(C.uint32_t(kind), pointer(document), C.size_t(len(document)), buffer, capacity, length)
	})
}

// Violation is a violation of a schema. Its texts are as the document and the schema have them.
type Violation struct {
	Pointer  string // the place, as a JSON pointer (RFC 6901)
	Expected string // what was expected there
}

// String returns the pointer, a colon, a space and what was expected, on one line: a backslash and what strconv.IsPrint does not
// print, such as control characters, U+2028 and the bidirectional controls, are escaped as in a string of Go.
func (v Violation) String() string { return shown(v.Pointer) + ": " + shown(v.Expected) }

// BrokenRule is a part of a document that breaks a rule. Its texts are as the document and the rule have them.
type BrokenRule struct {
	Pointer string // the part's place, as a JSON pointer (RFC 6901)
	Rule    string // the name of the rule
	Level   string // its level: must, stated, should or host
	Section string // where it is stated
	Wanted  string // what it wants
}

// String returns the pointer, a colon, a space, the rule, in parentheses its level and section, a colon, a space and what is wanted, on
// one line, escaped as that of a Violation.
func (b BrokenRule) String() string {
	return fmt.Sprintf("%s: %s (%s, %s): %s", shown(b.Pointer), shown(b.Rule), shown(b.Level), shown(b.Section), shown(b.Wanted))
}

// shown escapes a text as strconv.Quote does, but for quotation marks, which stay.
func shown(text string) string {
	quoted := strconv.Quote(text)
	return strings.ReplaceAll(quoted[1:len(quoted)-1], `\"`, `"`)
}

// fields returns the texts of a list: before each stands its length in eight bytes, the lowest first.
func fields(list []byte) []string {
	var texts []string
	for len(list) > 0 {
		end := 8 + binary.LittleEndian.Uint64(list)
		texts = append(texts, string(list[8:end]))
		list = list[end:]
	}
	return texts
}

// Violations returns all violations of the schema in a document, in the order of the schema. There are none exactly if the document
// is valid. The error is ErrInvalidJSON, ErrUnknownKind or ErrOutOfMemory.
func Violations(kind Kind, document []byte) ([]Violation, error) {
	var count C.size_t
	list, err := output(256, func(buffer *C.uint8_t, capacity C.size_t, length *C.size_t) C.uint32_t {
		return C.ciderglen_violations(C.uint32_t(kind), pointer(document), C.size_t(len(document)), buffer, capacity, length, &count)
	})
	var found []Violation
	for texts := fields(list); len(texts) > 0; texts = texts[2:] {
		found = append(found, Violation{texts[0], texts[1]})
	}
	return found, err
}

// BrokenRules returns the parts of a document that break rules of its kind, of the levels up to the one and for the platform. There
// are none exactly if every such rule is kept. The error is ErrInvalidJSON, ErrUnknownKind, ErrUnknownLevel, ErrUnknownPlatform or
// ErrOutOfMemory.
func BrokenRules(kind Kind, level Level, platform Platform, document []byte) ([]BrokenRule, error) {
	var count C.size_t
	list, err := output(1024, func(buffer *C.uint8_t, capacity C.size_t, length *C.size_t) C.uint32_t {
		return C.ciderglen_broken_rules(C.uint32_t(kind), C.uint32_t(level), C.uint32_t(platform), pointer(document), C.size_t(len(document)), buffer, capacity, length, &count)
	})
	var found []BrokenRule
	for texts := fields(list); len(texts) > 0; texts = texts[5:] {
		found = append(found, BrokenRule{texts[0], texts[1], texts[2], texts[3], texts[4]})
	}
	return found, err
}

// Reference is a reference to an image. A missing part is empty.
type Reference struct {
	Registry, Repository, Tag, Digest string

	whole string
}

// String returns the whole text of the reference, as docker.io/library/busybox:latest.
func (r Reference) String() string { return r.whole }

// ParseReference parses a reference to an image: busybox is docker.io/library/busybox:latest.
func ParseReference(text string) (Reference, error) {
	var parts C.struct_ciderglen_reference
	bytes := []byte(text)
	buffer, err := output(len(bytes)+32, func(buffer *C.uint8_t, capacity C.size_t, length *C.size_t) C.uint32_t {
		return C.ciderglen_reference(pointer(bytes), C.size_t(len(bytes)), buffer, capacity, length, &parts)
	})
	if err != nil {
		return Reference{}, err
	}
	whole, at := string(buffer), 0
	next := func(length C.size_t) string {
		if length == 0 {
			return ""
		}
		begin := at
		at += int(length) + 1
		return whole[begin : begin+int(length)]
	}
	return Reference{next(parts.registry), next(parts.repository), next(parts.tag), next(parts.digest), whole}, nil
}

// ResolveRegistry returns the registry that the reference is pulled from: index.docker.io in place of docker.io. It fails as
// ParseReference does.
func ResolveRegistry(text string) (string, error) {
	bytes := []byte(text)
	buffer, err := output(len(bytes)+32, func(buffer *C.uint8_t, capacity C.size_t, length *C.size_t) C.uint32_t {
		return C.ciderglen_resolve_registry(pointer(bytes), C.size_t(len(bytes)), buffer, capacity, length)
	})
	return string(buffer), err
}

// Pin returns the whole text of a reference with the digest of a descriptor, which is JSON, in place of its tag and digest. It fails
// as ParseReference does, and with ErrInvalidJSON or ErrInvalidDocument if there is no descriptor.
func Pin(text string, descriptor []byte) (string, error) {
	bytes := []byte(text)
	buffer, err := output(len(bytes)+128, func(buffer *C.uint8_t, capacity C.size_t, length *C.size_t) C.uint32_t {
		return C.ciderglen_pin(pointer(bytes), C.size_t(len(bytes)), pointer(descriptor), C.size_t(len(descriptor)), buffer, capacity, length)
	})
	return string(buffer), err
}

// CheckDigest returns nil if the text is a digest, else ErrInvalidDigest or ErrInvalidUTF8.
func CheckDigest(text string) error {
	bytes := []byte(text)
	if status := C.ciderglen_digest_check(pointer(bytes), C.size_t(len(bytes))); status != C.CIDERGLEN_DONE {
		return Error(status)
	}
	return nil
}

// Verify returns nil if the content has the digest and the size that a descriptor says of it. The error is ErrOtherSize or
// ErrOtherDigest if it has another, ErrUnknownAlgorithm if the digest is by none of sha256, sha384 and sha512, and ErrInvalidDigest
// or ErrInvalidUTF8 if the text is not a digest.
func Verify(digest string, size uint64, content []byte) error {
	bytes := []byte(digest)
	if status := C.ciderglen_verify(pointer(bytes), C.size_t(len(bytes)), C.uint64_t(size), pointer(content), C.size_t(len(content))); status != C.CIDERGLEN_DONE {
		return Error(status)
	}
	return nil
}
