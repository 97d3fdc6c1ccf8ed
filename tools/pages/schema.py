"""Writes docs/SCHEMA.md: the prose of tools/pages/schema.md, with a table of each record of tools/records and the enums of tools/names.

In the prose `<!-- records: NAME.. -->` gives way to the sections of these records, in this order, `<!-- note: NAME --> TEXT` is
added to the section of its record, and `<!-- enums -->` gives way to the table of enums. A record that only the prose or only a
description has is reported. `tools/gen records` and `tools/gen names` say what a description holds; what the page does not need of
it is passed over. The accessors are those of the sources.
"""
import glob
import re
import sys

from pages import api, sources

PROSE = f"{sources.TOP}/tools/pages/schema.md"
FACADE = "oci_spec"
# of each presence, what it is called, with serde's attributes
PRESENCES = {
    "R": "required",
    "O": "optional: `default`, `skip_serializing_if`",
    "D": "default {}: `default`",
    "N": "nullable: no attribute",
    "E": "unless empty: `default`, `skip_serializing_if`",
}
TYPES = {
    "T": "string", "B": "boolean", "Keys": "key set", "Detail": "`detail`", "Caps": "set of capabilities", "Cpu": "CPU list",
    "Free": "free map", "Digest": "digest", "Media": "media type", "Os": "operating system", "Arch": "architecture", "ErrorCode": "error code",
}
ZEROS = {"T": '`""`', "B": "`false`"}
# what a default is, as its content says it; else its code says it
CONTENTS = (
    (r'plain\.(?:text|variant) \(codes "(.*)"\)', r"`\1`"), (r"plain\.whole \(pos (\d+)\)", r"`\1`"), (r"plain\.truth (\w+)", r"`\1`"),
    (r"plain\.list plain\.no_plains", "`[]`"),
)


class Record:
    """A record's description: what it is, its members, and the words that it stands under."""

    def __init__(self, name):
        self.name, self.about, self.members, self.required, self.defaults, self.words = name, "", [], [], {}, {}


def records():
    """The records of all descriptions, by their names."""
    found = {}
    for path in sorted(glob.glob(f"{sources.TOP}/tools/records/*.records")):
        record = None
        for line in open(path, encoding="utf-8"):
            word, _, rest = line.strip().partition(" ")
            if word == "record":
                record = found[rest] = Record(rest)
            elif word == "about":
                record.about = rest
            elif word == "required":
                record.required = rest.split()
            elif word == "default":
                field, _, value = rest.partition(" ")
                record.defaults[field] = value.split(" | ")
            elif word in PRESENCES:
                record.members.append((word, *rest.split(None, 3)))
            elif record and word:
                record.words[word] = rest
    return found


def enums():
    """The enums of all descriptions: of each its variants' strings and the string that is its default."""
    found = {}
    for path in sorted(glob.glob(f"{sources.TOP}/tools/names/*.names")):
        for line in open(path, encoding="utf-8"):
            word, _, rest = line.strip().partition(" ")
            if word in ("name", "open"):
                name = rest
                found[name] = ([], None)
            elif word == "v":
                words = rest.partition(" | ")[0].split()
                found[name] = (found[name][0] + [words[1]], words[1] if "*" in words[2:] else found[name][1])
    return found


def type_of(text, known):
    """A member's type in words."""
    if text[0] in "[{":
        inner = "strings" if text[1:-1] == "T" else type_of(text[1:-1], known)
        return f"{'list' if text[0] == '[' else 'map'} of {inner}"
    return TYPES.get(text) or (f"`{text}`" if text in known else text)


def absent(kind, listed):
    """What stands for a member with a default that is absent."""
    if kind in listed:
        return f"`{listed[kind][1]}`"
    return "`[]`" if kind[0] == "[" else ZEROS.get(kind) or ("`0`" if kind[0] in "ui" else f"`{kind}`'s")


def default_words(code, content):
    for pattern, words in CONTENTS:
        if re.fullmatch(pattern, content):
            return re.sub(pattern, words, content)
    return f"`{re.sub(r'[(]alloc[)][?]', '', code)}`"


def struct_of(name):
    """The struct of a record, as the facade has it."""
    for _, owner, module in sources.public_modules(sources.crate(FACADE)):
        item = dict(sources.public_names(owner, module)).get(name)
        if item and item.kind == "struct":
            return item
    return None


def accessors(record):
    """The accessors of each member of a record, in order, as the sources have them."""
    item = struct_of(record.name)
    fields = [it.lines[0].partition(":")[0] for it in item.inner()] if item else []
    if len(fields) != len(record.members):
        sys.exit(f"tools/records has {len(record.members)} members of {record.name}, the sources {len(fields)}")
    calls = api.Accessors(item, None).fields
    for field in fields:
        own = calls.get(field, {})
        spelled = {"get": "`{}()`", "copy": "`{}()` (copy)", "set": "`{}(..)`", "mut": "`{}()`"}
        yield ", ".join(how.format(own[kind].name) for kind, how in spelled.items() if kind in own)


def told(record, note):
    """What is said of a record before its table."""
    says = [record.about]
    if record.required:
        says.append(f"Its builder requires {', '.join(f'`{field}`' for field in record.required)}.")
    fixed = record.words.get("fixed")
    if fixed:
        says.append(f"Its builder has no setter for `{fixed}`, which is {default_words(*record.defaults[fixed])}.")
    defaults = [f"`{field}` {default_words(*value)}" for field, value in record.defaults.items() if field != fixed]
    if "whole" in record.words and "`try_default`" not in note:
        says.append(f"`try_default`: {', '.join(defaults)}." if defaults else "It has `try_default`.")
    says += ["It has reading and writing calls of its own."] if "calls" in record.words else []
    says += ["It displays as its pretty text."] if "display" in record.words else []
    says += ["It is `Copy`."] if "copy" in record.words else []
    return " ".join([*says, note] if note else says)


def section(record, note, known, listed):
    """A record's section: what it is, and its table."""
    rows = []
    for (presence, name, kind, _, text), calls in zip(record.members, accessors(record)):
        name, _, alias = name.partition("|")
        named = f"`{name}`" + (f", alias `{alias}`" if alias else "")
        rows.append((named, type_of(kind, known), PRESENCES[presence].format(absent(kind, listed)), calls, api.cell(text)))
    titles = ("member", "type", "presence", "accessors", "what it is")
    return [f"#### {record.name}", "", told(record, note), "", *api.table(titles, rows)]


def enum_lines(listed):
    rows = []
    for name, (texts, default) in listed.items():
        shown = [f"**`{text}`**" if text == default else f"`{text}`" for text in texts]
        rows.append((f"`{name}`", ", ".join(shown)))
    return api.table(("enum", "strings"), rows)


def page():
    """The whole page, and what it lacks: records that the prose or the descriptions do not have."""
    known, listed, lines, seen = records(), enums(), [], []
    with open(PROSE, encoding="utf-8") as file:
        prose = file.read()
    notes = dict(re.findall(r"(?m)^<!-- note: (\w+) --> (.*)$", prose))
    for line in prose.rstrip("\n").split("\n"):
        names = re.fullmatch(r"<!-- records: (.*) -->", line)
        if names:
            seen += names[1].split()
            for name in (it for it in names[1].split() if it in known):
                lines += section(known[name], notes.get(name, ""), {*known, *listed}, listed)
        elif line == "<!-- enums -->":
            lines += enum_lines(listed)
        elif not line.startswith("<!-- note: "):
            lines.append(line)
    wrong = {*seen} ^ {*known} | {*notes} - {*known}
    text = re.sub(r"\n{3,}", "\n\n", "\n".join(lines)).rstrip("\n") + "\n"
    return text, [f"tools/pages/schema.md and tools/records do not agree on {name}" for name in sorted(wrong)]
