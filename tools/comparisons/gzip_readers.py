"""What Go's compress/gzip makes of gzip files, and where it differs for a reason."""
import json
import os
import struct
import subprocess


# where Go differs from RFC 1952, and why it is not our mistake
EXPLAINED = {
    "reserved": "reads files with a reserved flag (RFC 1952, 2.3.1.2: a decoder must reject them)",
    "long": "rejects a name or a comment of 512 bytes and more",
}


def by_go(program, folder, whole):
    """The SHA-256 of the text, or nothing if Go rejects the file."""
    path = os.path.join(folder, "file.gz")
    with open(path, "wb") as file:
        file.write(whole)
    done = subprocess.run([program, path], capture_output=True, text=True, check=True)
    return json.loads(done.stdout)["sum"]


def has_long_text(whole):
    """Whether the header of the first member has a name or a comment that is longer than Go takes."""
    if len(whole) < 10:
        return False
    flags, place = whole[3], 10
    if flags & 4:
        place += 2 + struct.unpack("<H", whole[place:place + 2])[0]
    for flag in (8, 16):
        if flags & flag:
            end = whole.find(b"\0", place)
            if end - place >= 512:
                return True
            place = end + 1
    return False


def has_reserved_flag(whole):
    """Whether some member may have a reserved flag."""
    place = whole.find(b"\x1f\x8b\x08")
    while place >= 0:
        if whole[place + 3:place + 4] >= b" ":
            return True
        place = whole.find(b"\x1f\x8b\x08", place + 1)
    return False


def reason(whole, fault, go):
    """Why Go's answer may be another than ours: a row of EXPLAINED, or None."""
    if go and fault == "bad header" and has_reserved_flag(whole):
        return "reserved"
    if not go and fault is None and has_long_text(whole):
        return "long"
    return None
