"""Gzip files, by a seed: of all levels and strategies of zlib, of one member and more, sound, changed and cut; and what RFC 1952 and zlib's raw inflate say of a file."""
import struct
import zlib

FLUSHES = [zlib.Z_SYNC_FLUSH, zlib.Z_FULL_FLUSH, zlib.Z_PARTIAL_FLUSH, zlib.Z_BLOCK]
# what our program may say where a strict reading or zlib says this
CODES = {"over-subscribed code lengths", "incomplete code lengths"}
KINDS = {
    **{kind: {kind} for kind in ("bad header", "bad header checksum", "checksum mismatch", "size mismatch", "trailing data")},
    "zlib: invalid block type": {"bad block type"},
    "zlib: invalid stored block lengths": {"bad stored length"},
    "zlib: too many length or distance symbols": {"too many code lengths"},
    "zlib: invalid code lengths set": CODES,
    "zlib: invalid bit length repeat": {"bad code length repeat"},
    # zlib reads a code of lengths that has no code at all as zeros, and misses the end of the block then, or finds that of the file
    "truncated": {"truncated", "incomplete code lengths"},
    "zlib: invalid code -- missing end-of-block": {"no code for the end of the block", "incomplete code lengths"},
    "zlib: invalid literal/lengths set": CODES,
    "zlib: invalid distances set": CODES,
    "zlib: invalid literal/length code": {"bits without a symbol"},
    "zlib: invalid distance code": {"bits without a symbol"},
    "zlib: invalid distance too far back": {"bad distance"},
}
TAILS = [b"\0", b"\0" * 512, b"x", b"\x1f", b"\x1f\x8b"]


def some_bytes(chance, count):
    return bytes(chance.randrange(256) for _ in range(count))


def text(chance, samples):
    """A text: empty, random, of one byte, that repeats, of two letters, uneven, or a part of a file."""
    kind = chance.randrange(10)
    if kind == 0:
        return b""
    if kind == 1:
        return some_bytes(chance, chance.randrange(1, 3000))
    if kind == 2:
        return bytes([chance.randrange(256)]) * chance.randrange(1, 300_000)
    if kind == 3:
        return some_bytes(chance, chance.randrange(1, 40_000)) * chance.randrange(1, 5)
    if kind == 4:
        return bytes(chance.choice(b"ab") for _ in range(chance.randrange(1, 20_000)))
    if kind == 5:
        return bytes(min(255, int(chance.expovariate(0.1))) for _ in range(chance.randrange(1, 50_000)))
    with open(chance.choice(samples), "rb") as file:
        whole = file.read()
    start = chance.randrange(len(whole) + 1)
    return whole[start:start + chance.randrange(1, 300_000)]


def stream(chance, content):
    """The content as a DEFLATE stream, of any level, window, memory, strategy and flushes."""
    made = zlib.compressobj(chance.randrange(10), zlib.DEFLATED, -chance.randrange(9, 16), chance.randrange(1, 10), chance.randrange(5))
    parts, at = [], 0
    while at < len(content):
        count = chance.randrange(1, len(content) + 1)
        parts.append(made.compress(content[at:at + count]))
        at += count
        if chance.randrange(8) == 0:
            parts.append(made.flush(chance.choice(FLUSHES)))
    return b"".join(parts) + made.flush()


def header(chance):
    flags = chance.randrange(32) if chance.randrange(3) == 0 else chance.choice([0, 8])
    made = bytes([0x1F, 0x8B, 8, flags]) + some_bytes(chance, 6)
    if flags & 4:
        field = some_bytes(chance, chance.randrange(300))
        made += struct.pack("<H", len(field)) + field
    for flag in (8, 16):
        if flags & flag:
            made += bytes(chance.randrange(1, 256) for _ in range(chance.randrange(40))) + b"\0"
    if flags & 2:
        made += struct.pack("<H", zlib.crc32(made) & 0xFFFF)
    return made


def member(chance, content):
    return header(chance) + stream(chance, content) + struct.pack("<II", zlib.crc32(content), len(content) & 0xFFFFFFFF)


def file(chance, samples):
    """A sound file of one member or more."""
    return b"".join(member(chance, text(chance, samples)) for _ in range(chance.choice([1, 1, 1, 1, 2, 3, 7])))


def changed(chance, whole):
    """The file with one to six changes: a bit or a byte another, bytes more or fewer, an end cut off or put on."""
    made = bytearray(whole)
    for _ in range(chance.choice([1, 1, 1, 2, 5])):
        kind, at = chance.randrange(6), chance.randrange(len(made) + 1)
        if kind == 0 and at < len(made):
            made[at] ^= 1 << chance.randrange(8)
        elif kind == 1 and at < len(made):
            made[at] = chance.randrange(256)
        elif kind == 2:
            del made[at:]
        elif kind == 3:
            made[at:at] = some_bytes(chance, chance.randrange(1, 5))
        elif kind == 4:
            del made[at:at + chance.randrange(1, 5)]
        else:
            made += chance.choice([*TAILS, some_bytes(chance, 20)])
    if chance.randrange(2) and len(made) > 30:
        made[chance.randrange(10, min(len(made), 120))] ^= 1 << chance.randrange(8)
    return bytes(made)


class Reading:
    """Bytes that are read one after another."""

    def __init__(self, whole):
        self.whole, self.at = whole, 0

    def take(self, count):
        if self.at + count > len(self.whole):
            raise EOFError
        self.at += count
        return self.whole[self.at - count:self.at]

    def take_text(self):
        end = self.whole.find(b"\0", self.at)
        if end < 0:
            raise EOFError
        self.at = end + 1


class Refused(Exception):
    """The file is none, for this reason."""


def read_header(reading, is_first):
    start = reading.at
    if reading.take(1) != b"\x1f":
        raise Refused("bad header" if is_first else "trailing data")
    if reading.take(1) != b"\x8b" or reading.take(1) != b"\x08":
        raise Refused("bad header")
    flags = reading.take(1)[0]
    if flags & 224:
        raise Refused("bad header")
    reading.take(6)
    if flags & 4:
        reading.take(struct.unpack("<H", reading.take(2))[0])
    for flag in (8, 16):
        if flags & flag:
            reading.take_text()
    if flags & 2:
        expected = zlib.crc32(reading.whole[start:reading.at]) & 0xFFFF
        if struct.unpack("<H", reading.take(2))[0] != expected:
            raise Refused("bad header checksum")


def read_member(reading, is_first):
    read_header(reading, is_first)
    inflater = zlib.decompressobj(-15)
    try:
        content = inflater.decompress(reading.whole[reading.at:]) + inflater.flush()
    except zlib.error as error:
        raise Refused("zlib: " + str(error).split(": ", 1)[-1]) from error
    if not inflater.eof:
        raise EOFError
    reading.at = len(reading.whole) - len(inflater.unused_data)
    if struct.unpack("<I", reading.take(4))[0] != zlib.crc32(content):
        raise Refused("checksum mismatch")
    if struct.unpack("<I", reading.take(4))[0] != len(content) & 0xFFFFFFFF:
        raise Refused("size mismatch")
    return content


def judged(whole):
    """The text of a file and None, or None and why it is none."""
    reading, parts = Reading(whole), []
    try:
        while not parts or reading.at < len(whole):
            parts.append(read_member(reading, not parts))
    except Refused as reason:
        return None, str(reason)
    except EOFError:
        return None, "truncated"
    return b"".join(parts), None
