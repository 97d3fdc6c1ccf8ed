"""Canonical form and validation of the JSON documents of the Open Container Initiative, image references and digests.

The functions call the shared library of Ciderglen, which is formally verified:

>>> from ciderglen import Kind, normalize, parse_reference
>>> normalize(Kind.LAYOUT, b'{"note":null, "imageLayoutVersion":"1.0.0"}')
b'{"imageLayoutVersion":"1.0.0"}'
>>> str(parse_reference("busybox"))
'docker.io/library/busybox:latest'

The library is the file that the environment variable CIDERGLEN_LIBRARY names, or else libciderglen.so where the loader finds it. All
functions may be called from any thread; the interpreter's lock is released during a call.
"""

import ctypes
import ctypes.util
import enum
import os
from typing import Callable, Iterator, List, NamedTuple, Optional

__all__ = [
    "BrokenRule",
    "Error",
    "InvalidDocument",
    "InvalidJSON",
    "InvalidReference",
    "Kind",
    "Level",
    "Platform",
    "Reference",
    "Status",
    "Violation",
    "broken_rules",
    "is_digest",
    "normalize",
    "normalize_pretty",
    "parse_reference",
    "pin",
    "resolve_registry",
    "verify",
    "violations",
]

INTERFACE = 2


class Kind(enum.IntEnum):
    """A kind of document."""

    MANIFEST = 0
    INDEX = 1
    CONFIG = 2
    ARTIFACT = 3
    LAYOUT = 4
    DESCRIPTOR = 5
    ERROR = 6
    REPOSITORIES = 7
    TAGS = 8
    REFERENCE = 9
    SPEC = 10
    STATE = 11
    PROCESS_STATE = 12
    FEATURES = 13


class Level(enum.IntEnum):
    """A level of rules, which stands for those above it, too."""

    MUST = 0
    STATED = 1
    SHOULD = 2
    HOST = 3


class Platform(enum.IntEnum):
    """A platform that a document is for; OF_DOCUMENT is the one that its parts say."""

    OF_DOCUMENT = 0
    LINUX = 1
    WINDOWS = 2
    SOLARIS = 3
    VM = 4
    ZOS = 5
    FREEBSD = 6


class Status(enum.IntEnum):
    """A status of the library."""

    DONE = 0
    BUFFER_TOO_SMALL = 1
    OUT_OF_MEMORY = 2
    UNKNOWN_KIND = 3
    INVALID_JSON = 4
    INVALID_DOCUMENT = 5
    INVALID_UTF8 = 6
    INVALID_DIGEST = 7
    OTHER_SIZE = 8
    OTHER_DIGEST = 9
    UNKNOWN_ALGORITHM = 10
    UNKNOWN_LEVEL = 11
    UNKNOWN_PLATFORM = 12
    NAME_EMPTY = 16
    NAME_CONTAINS_UPPERCASE = 17
    NAME_TOO_LONG = 18
    TAG_INVALID_FORMAT = 19
    DIGEST_INVALID_FORMAT = 20
    DIGEST_INVALID_LENGTH = 21
    DIGEST_UNSUPPORTED = 22
    REFERENCE_INVALID_FORMAT = 23


class Error(ValueError):
    """A call failed; `status` says why."""

    def __init__(self, status: Status):
        super().__init__(status.name.lower().replace("_", " "))
        self.status = status


class InvalidJSON(Error):
    """The document is not JSON."""


class InvalidDocument(Error):
    """The document is JSON that its schema does not allow, or that has no canonical form."""


class InvalidReference(Error):
    """The text is not a reference to an image."""


def _shown(text: str) -> str:
    """The text on one line: a backslash and what str.isprintable() is false of are escaped as in a literal of Python."""
    return "".join(c if c.isprintable() and c != "\\" else c.encode("unicode_escape").decode() for c in text)


class Violation(NamedTuple):
    """A violation of a schema: the place as a JSON pointer (RFC 6901), and what was expected there.

    The two are as the document and the schema have them. `str` gives the pointer, a colon, a space and what was expected, on one line:
    a backslash and what `str.isprintable()` is false of, such as control characters, U+2028 and the bidirectional controls, are escaped
    as in a literal of Python.
    """

    pointer: str
    expected: str

    def __str__(self) -> str:
        return f"{_shown(self.pointer)}: {_shown(self.expected)}"


class BrokenRule(NamedTuple):
    """A part of a document that breaks a rule.

    It has the part's place as a JSON pointer (RFC 6901), and of the rule its name, its level (must, stated, should or host), the section
    that states it, and what it wants, all as the document and the rule have them. `str` gives the pointer, a colon, a space, the name,
    in parentheses level and section, a colon, a space and what is wanted, escaped as a Violation is.
    """

    pointer: str
    rule: str
    level: str
    section: str
    wanted: str

    def __str__(self) -> str:
        pointer, rule, level, section, wanted = map(_shown, self)
        return f"{pointer}: {rule} ({level}, {section}): {wanted}"


class Reference(NamedTuple):
    """A reference to an image. `str` gives its whole text."""

    registry: str
    repository: str
    tag: Optional[str]
    digest: Optional[str]

    def __str__(self) -> str:
        tag = "" if self.tag is None else f":{self.tag}"
        digest = "" if self.digest is None else f"@{self.digest}"
        return f"{self.registry}/{self.repository}{tag}{digest}"


class _Parts(ctypes.Structure):
    _fields_ = [(name, ctypes.c_size_t) for name in ("registry", "repository", "tag", "digest")]


def _load() -> ctypes.CDLL:
    path = os.environ.get("CIDERGLEN_LIBRARY") or ctypes.util.find_library("ciderglen")
    if not path:
        raise ImportError("there is no libciderglen.so; CIDERGLEN_LIBRARY can name it")
    library = ctypes.CDLL(path)
    size, text, number = ctypes.c_size_t, ctypes.c_char_p, ctypes.c_uint32
    output = [ctypes.c_char_p, size, ctypes.POINTER(size)]
    for name, parameters in {
        "interface": [],
        "normalize": [number, text, size, *output],
        "pretty": [number, text, size, *output],
        "violations": [number, text, size, *output, ctypes.POINTER(size)],
        "broken_rules": [number, number, number, text, size, *output, ctypes.POINTER(size)],
        "digest_check": [text, size],
        "verify": [text, size, ctypes.c_uint64, text, size],
        "reference": [text, size, *output, ctypes.POINTER(_Parts)],
        "resolve_registry": [text, size, *output],
        "pin": [text, size, text, size, *output],
    }.items():
        function = getattr(library, f"ciderglen_{name}")
        function.argtypes, function.restype = parameters, number
    if library.ciderglen_interface() != INTERFACE:
        raise ImportError(f"{path} has another interface than {INTERFACE}")
    return library


_library = _load()


def _raise(number: int) -> None:
    status = Status(number)
    if status == Status.OUT_OF_MEMORY:
        raise MemoryError
    if status == Status.INVALID_JSON:
        raise InvalidJSON(status)
    if status == Status.INVALID_DOCUMENT:
        raise InvalidDocument(status)
    if status >= Status.NAME_EMPTY or status == Status.INVALID_UTF8:
        raise InvalidReference(status)
    raise Error(status)


def _output(capacity: int, function: Callable[..., int], *inputs: object, outputs: tuple = ()) -> bytes:
    """Calls with a buffer of the first capacity, and again with the capacity that is needed.

    No pointer is NULL: inputs are `bytes`, which have an address where they are empty, too, and a buffer has one byte at least.
    """
    length = ctypes.c_size_t()
    while True:
        buffer = ctypes.create_string_buffer(max(capacity, 1))
        status = function(*inputs, buffer, capacity, ctypes.byref(length), *outputs)
        if status == Status.DONE:
            return buffer[: length.value]
        if status != Status.BUFFER_TOO_SMALL:
            _raise(status)
        capacity = length.value


def normalize(kind: Kind, document: bytes) -> bytes:
    """Returns the canonical form of a document as compact JSON.

    Unknown members are left out, the others are in byte order of their names. It has another digest than the document. Raises
    InvalidJSON, InvalidDocument or MemoryError.
    """
    document = bytes(document)
    return _output(len(document) + 64, _library.ciderglen_normalize, Kind(kind), document, len(document))


def normalize_pretty(kind: Kind, document: bytes) -> bytes:
    """Returns the canonical form of a document as JSON that is indented by two spaces a level. Raises what normalize does."""
    document = bytes(document)
    return _output(2 * len(document) + 64, _library.ciderglen_pretty, Kind(kind), document, len(document))


def _fields(data: bytes) -> Iterator[str]:
    """The texts of a list: before each stands its length in eight bytes, the lowest first."""
    at = 0
    while at < len(data):
        begin = at + 8
        at = begin + int.from_bytes(data[at:begin], "little")
        yield data[begin:at].decode()


def violations(kind: Kind, document: bytes) -> List[Violation]:
    """Returns all violations of the schema in a document, in the order of the schema.

    The list is empty exactly if the document is valid. Raises InvalidJSON or MemoryError.

    >>> for violation in violations(Kind.LAYOUT, b'{"imageLayoutVersion":1}'):
    ...     print(violation)
    /imageLayoutVersion: a string
    """
    document, count = bytes(document), ctypes.c_size_t()
    data = _output(256, _library.ciderglen_violations, Kind(kind), document, len(document), outputs=(ctypes.byref(count),))
    texts = _fields(data)
    return [Violation(*fields) for fields in zip(texts, texts)]


def broken_rules(kind: Kind, document: bytes, level: Level = Level.STATED, platform: Platform = Platform.OF_DOCUMENT) -> List[BrokenRule]:
    """Returns what of a document breaks rules of its kind, of the levels up to the one and for the platform.

    The list is empty exactly if every such rule is kept. Raises InvalidJSON or MemoryError.
    """
    document, count = bytes(document), ctypes.c_size_t()
    numbers = Kind(kind), Level(level), Platform(platform)
    data = _output(1024, _library.ciderglen_broken_rules, *numbers, document, len(document), outputs=(ctypes.byref(count),))
    texts = _fields(data)
    return [BrokenRule(*fields) for fields in zip(texts, texts, texts, texts, texts)]


def parse_reference(text: str) -> Reference:
    """Parses a reference to an image: `busybox` is `docker.io/library/busybox:latest`. Raises InvalidReference or MemoryError."""
    data, parts = text.encode("utf-8", "surrogatepass"), _Parts()
    whole = _output(len(data) + 32, _library.ciderglen_reference, data, len(data), outputs=(ctypes.byref(parts),)).decode()
    at, found = 0, []
    for length in (parts.registry, parts.repository, parts.tag, parts.digest):
        found.append(whole[at : at + length] if length else None)
        at += length + 1 if length else 0
    return Reference(found[0] or "", found[1] or "", found[2], found[3])


def resolve_registry(text: str) -> str:
    """Returns the registry that a reference is pulled from: `index.docker.io` in place of `docker.io`. Raises what parse_reference does."""
    data = text.encode("utf-8", "surrogatepass")
    return _output(len(data) + 32, _library.ciderglen_resolve_registry, data, len(data)).decode()


def pin(text: str, descriptor: bytes) -> str:
    """Returns the whole text of a reference with the digest of a descriptor, which is JSON, in place of its tag and digest.

    Raises what parse_reference does, and InvalidJSON or InvalidDocument if there is no descriptor.
    """
    data, descriptor = text.encode("utf-8", "surrogatepass"), bytes(descriptor)
    return _output(len(data) + 128, _library.ciderglen_pin, data, len(data), descriptor, len(descriptor)).decode()


def is_digest(text: str) -> bool:
    """Returns whether the text is a digest."""
    data = text.encode("utf-8", "surrogatepass")
    return _library.ciderglen_digest_check(data, len(data)) == Status.DONE


def verify(digest: str, size: int, content: bytes) -> Status:
    """Compares a content with the digest and the size, from 0 to 2**64 - 1, that a descriptor says of it.

    Returns DONE if it has both, OTHER_SIZE or OTHER_DIGEST if it has another, UNKNOWN_ALGORITHM if the digest is by none of sha256,
    sha384 and sha512, and INVALID_DIGEST or INVALID_UTF8 if the text is not a digest. Raises ValueError for another size.
    """
    if not 0 <= size < 1 << 64:
        raise ValueError("a size is from 0 to 2**64 - 1")
    data, content = digest.encode("utf-8", "surrogatepass"), bytes(content)
    return Status(_library.ciderglen_verify(data, len(data), size, content, len(content)))
