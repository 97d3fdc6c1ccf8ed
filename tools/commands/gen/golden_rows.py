"""Golden rows of each number of each record, at its bounds and one past them, and of each JSON text of each enum.

A row is a record's default document, as crates/oci_tests/data/tables/defaults.rows has it from the original crate, with one member at a
bound of its type: inside, it is written with its members in byte order; outside, it is rejected at that record and member. The texts of
an enum, extensible or not, are those of crates/oci_tests/data/tables/ENUM.rows, in the first record that holds it. Records without a
default have a smallest document here. The rows stand at the end of crates/oci_tests/data/golden/RECORD.rows, behind a remark, and
the counts in its `stdout` follow.
"""
import glob
import json
import re

import golden
from generator.records import Book
from repository import TOP, brought_up_to_date, read, rows as rows_of

BITS = {"u16": (0, 2**16 - 1), "u32": (0, 2**32 - 1), "u64": (0, 2**64 - 1), "usize": (0, 2**64 - 1), "i32": (-2**31, 2**31 - 1), "i64": (-2**63, 2**63 - 1)}
REMARK = "# bounds of numbers and texts of enums, written by tools/gen golden_rows"
DIGEST = "sha256:" + "0" * 64
BLOB = {"mediaType": "application/octet-stream", "digest": DIGEST, "size": 0}
# the types of members that hold an enum of the image and distribution specifications, or capabilities: the enum, and the kind of its rows
HELD = {"ErrorCode": ("ErrorCode", "json"), "Media": ("MediaType", "display"), "Os": ("Os", "display"), "Arch": ("Arch", "display"),
        "Caps": ("Capability", "json")}
SMALLEST = {"ErrorInfo": {"code": "DENIED"}, "Descriptor": BLOB, "ImageManifest": {"schemaVersion": 2, "config": BLOB, "layers": []}}


def defaults():
    """The default document of each record that has one."""
    found = dict(SMALLEST)
    for line in rows_of(f"{golden.DATA}/tables/defaults.rows"):
        name, _, text = line.partition(" ")
        if text.startswith("{"):
            found.setdefault(name, json.loads(text.replace("(the host's)", "linux")))
    return found


def compact(document):
    return json.dumps(document, sort_keys=True, separators=(",", ":"), ensure_ascii=False)


def texts_of(enum, kind):
    """The JSON texts of an enum."""
    lines = rows_of(f"{golden.DATA}/tables/{enum}.rows")
    return [line.split(" ", 2)[2] for line in lines if line.startswith(f"{kind} ") and not line.startswith(f"{kind} none")]


def names(record, document, seen):
    """The rows of the enums that no record before holds."""
    out = []
    for member in record.members:
        kind = member.type.text
        inner = kind.strip("[]")
        enum = HELD.get(inner, (inner, "json"))
        if enum in seen or inner not in HELD and inner not in record.book.names:
            continue
        seen.add(enum)
        for word in texts_of(*enum):
            text = compact(document | {member.name: [word] if kind != inner or kind == "Caps" else word})
            out.append(f"{text}\n= {text}")
    return out


def rows(record, document):
    """The rows of a record's numbers."""
    out = []
    for member in record.members:
        kind = member.type.text
        inner = kind.strip("[]")
        if inner not in BITS:
            continue
        low, high = BITS[inner]
        for number in (low, high, low - 1, high + 1):
            value = [number] if kind != inner else number
            text = compact(document | {member.name: value})
            inside = low <= number <= high
            out.append(f"{text}\n" + (f"= {text}" if inside else f"! {record.name}.{member.name}"))
    return out


def files():
    """The text of each file that has such rows, and of stdout."""
    known, made, seen, stdout = defaults(), {}, set(), golden.read()
    for path in sorted(glob.glob(f"{TOP}/tools/records/*.records")):
        for record in Book.beside(path).records:
            document = known.get(record.name)
            added = [] if document is None else rows(record, document) + names(record, document, seen)
            if not added:
                continue
            path = f"crates/{golden.NAME}/data/golden/{record.name}.rows"
            old = read(path).partition("# bounds of numbers")[0].rstrip("\n")
            made[path] = old + "\n\n" + "\n\n".join([REMARK, *added]) + "\n"
            count = sum(not block.startswith("#") for block in made[path].strip().split("\n\n"))
            stdout = re.sub(rf"(?m)^{record.name}: \d+ rows$", f"{record.name}: {count} rows", stdout)
    made[f"crates/{golden.NAME}/stdout"] = stdout
    return made


def run(options):
    return brought_up_to_date(files(), options.check)
