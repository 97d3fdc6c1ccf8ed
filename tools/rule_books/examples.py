"""Examples of rules in crates/oci_rule_examples: of each rule a document that breaks it beside one that keeps it, as `ciderglen explain` shows them.

Both are golden rows (rows.py) of one kind of documents, or the one that keeps it is the base of the other: those two that are shown shortest,
rather with a part that keeps the rule than without one. Of each is shown in what it differs from the other,
and the part that breaks the rule: a JSON Pointer (RFC 6901) with the value there, or `absent`. Of a long value are shown its first and last
characters with `...` between them, and of many parts the first, with `..` behind them.
"""
import json
import re

CRATE = "oci_rule_examples"
# the rules of one constant; what a constant means is proved in a time that grows with the square of its strings
MOST = 4
# how many parts of a document are shown, and how much of a value
PARTS, HEAD, TAIL = 4, 61, 36
NOTHING = object()
TITLES = {
    "manifest": "an image manifest", "index": "an image index", "config": "an image configuration", "artifact": "an artifact manifest",
    "layout": "an oci-layout file", "descriptor": "a content descriptor", "error": "a registry's error reply", "repositories": "a list of repositories",
    "tags": "a list of tags", "reference": "an image reference in its parts", "spec": "a runtime configuration", "state": "the state of a container",
    "process-state": "the state of a container process", "features": "the features of a runtime",
}


def differing(one, other, way=()):
    """The ways to the parts in which two values differ."""
    if isinstance(one, dict) and isinstance(other, dict):
        for name in dict.fromkeys([*one, *other]):
            yield from differing(one.get(name, NOTHING), other.get(name, NOTHING), (*way, name))
    elif isinstance(one, list) and isinstance(other, list) and len(one) == len(other):
        for at, (a, b) in enumerate(zip(one, other)):
            yield from differing(a, b, (*way, str(at)))
    elif one is NOTHING or other is NOTHING or json.dumps(one) != json.dumps(other):
        yield way


def part(value, way):
    """The part of a document at the end of a way, or NOTHING."""
    for name in way:
        if isinstance(value, list):
            value = value[int(name)] if name.isdigit() and int(name) < len(value) else NOTHING
        else:
            value = value.get(name, NOTHING) if isinstance(value, dict) else NOTHING
    return value


def written(value):
    """A value as JSON, with how many items it has where that is cut."""
    text = json.dumps(value, ensure_ascii=False, separators=(",", ":"))
    if len(text) <= HEAD + 3 + TAIL:
        return text
    return f"{text[:HEAD]}...{text[-TAIL:]}" + (f" ({len(value)} items)" if isinstance(value, list) else "")


def shown(document, ways):
    """The parts of a document at these ways, each with its pointer."""
    out = []
    for way in ways[:PARTS]:
        pointer = "".join("/" + name.replace("~", "~0").replace("/", "~1") for name in way)
        value = part(document, way)
        text = "absent" if value is NOTHING else written(value)
        out.append(f"{pointer}: {text}" if pointer else text)
    return ", ".join(out + [".."] * (len(ways) > PARTS))


def way_of(pointer):
    return tuple(name.replace("~1", "/").replace("~0", "~") for name in pointer.split("/")) if pointer else ()


def begins(way, other):
    """Whether one of two ways begins with the other."""
    return all(a == b for a, b in zip(way, other))


def pair(broken, document, platform):
    """How a row that breaks a rule and a document that keeps it are shown."""
    ways = list(differing(broken.document, document))
    for name, pointer in broken.listed:
        way = way_of(pointer)
        if name == broken.rule and way:
            near = [it for it in ways if begins(way, it)] or [way]
            ways = near + [it for it in ways if it not in near]
    on = (broken.platform, platform) if broken.platform != platform else ("-", "-")
    return [shown(whole, ways) + ("" if it == "-" else f" (on {it})") for whole, it in zip((broken.document, document), on)]


def length(shown_pair):
    """How long a pair is, for the choice of the shortest; one that is cut, and one without the part that keeps the rule, count as longer."""
    return sum(map(len, shown_pair)) + sum(999 * text.endswith("..") for text in shown_pair) + 250 * shown_pair[1].count(": absent")


class Example:
    """A rule, why it is asked, and how a document breaks it and another keeps it."""

    def __init__(self, name, why, found):
        self.name, self.why = name, why
        kind, platform, (self.breaks, self.keeps) = min(found, key=lambda it: length(it[2]))
        self.within = TITLES[kind] + ("" if platform == "-" else f" for {platform}")


def why(row):
    """Why a rule is asked: the word in its sentence, or the reason."""
    if row is None or row.is_reason():
        return row.last if row else "-"
    if row.word == "-":
        return "the specification states it, without a word such as MUST"
    return f"the specification says {row.word.upper()}"


def pairs(name, rows):
    """Each pair of documents of one kind of which the one breaks a rule and the other keeps it: the kind, the platform, how both are shown."""
    for kind, of_kind in rows.items():
        kept = [row for row in of_kind if row.rule == name and not row.breaks]
        for broken in (row for row in of_kind if row.rule == name and row.breaks):
            yield kind, broken.platform, pair(broken, broken.base, broken.platform)
            yield from ((kind, broken.platform, pair(broken, row.document, row.platform)) for row in kept)


def examples(model, rows, sources):
    """The examples, by the files that their rules are from."""
    out = {}
    for file in model.files:
        for name in dict.fromkeys(it.name for group in model.files[file] for it in group.entries if hasattr(it, "name")):
            found = list(pairs(name, rows))
            if found:
                out.setdefault(file, []).append(Example(name, why(sources.get(name)), found))
    return out


def literal(text):
    """A text as the code has it; the pointer to a member of `root` is written so that it does not look like a path of a machine."""
    text = text.replace("\\", "\\\\").replace('"', '\\"')
    return '"' + re.sub("/(?=root/)", r"\\x2f", text) + '"'


def row(it):
    return f"    example! {{ {literal(it.name)}, {literal(it.why)}, {literal(it.within)},\n        {literal(it.breaks)},\n        {literal(it.keeps)} }},\n"


def part_file(file, of_file):
    """The examples of a file of rules."""
    runs = [of_file[at : at + MOST] for at in range(0, len(of_file), MOST)]
    title = file.replace("_", " ")
    out = f"//! Examples of the rules in `{file}.rules`.\nghost use Rattle.std.specs.Prelude.{{◌≡◌, IfSome}};\n\nuse crate::example::{{Example, found_in}};\n\n"
    for number, run in enumerate(runs, 1):
        out += f"static EXAMPLES_{number}: [Example; {len(run)}] = [\n{''.join(map(row, run))}];\n\n"
    out += f"/// The example of a rule of {title}, by its name.\npub fn {file}_example(name: &str) -> Option<&'static Example>\n"
    names = ", ".join(f"&EXAMPLES_{number}" for number in range(1, len(runs) + 1))
    return out + f"    ensures {{ IfSome result (λ e. e.now.name.now ≡ name.now) }}\n{{\n    found_in(&[{names}], name)\n}}\n"


def all_file(names):
    """The example of any rule."""
    out = "//! The example of any rule.\nghost use Rattle.std.specs.Prelude.{◌≡◌, IfSome};\n\n"
    out += "".join(f"use crate::{name}::{name}_example;\n" for name in names) + "use crate::example::Example;\n\n"
    out += "/// The example of a rule, by its name; none if no rule has it.\npub fn example_of(name: &str) -> Option<&'static Example>\n"
    out += "    ensures { IfSome result (λ e. e.now.name.now ≡ name.now) }\n{\n"
    out += "".join(f"    if let Some(found) = {name}_example(name) {{\n        return Some(found);\n    }}\n" for name in names)
    return out + "    None\n}\n"


ROOT = """//! Examples of the rules of the specifications: of each rule how a document breaks it, and how another keeps it.
#![tactic(auto)]

/// An example: the rule's name, why it is asked, what both documents are, how the one breaks the rule, and how the other keeps it.
macro_rules! example {
    ($name:literal, $why:literal, $within:literal, $breaks:literal, $keeps:literal) => {
        Example { name: $name, why: $why, within: $within, breaks: $breaks, keeps: $keeps }
    };
}

"""


def files(model, rows, sources):
    """All files of code, by their paths."""
    found = examples(model, rows, sources)
    out = {f"crates/{CRATE}/src/{file}.rt": part_file(file, of_file) for file, of_file in found.items()}
    out[f"crates/{CRATE}/src/all.rt"] = all_file(sorted(found))
    mods = [*(f"mod {file};\n" for file in found), "mod all;\n", "pub mod example;\n"]
    out[f"crates/{CRATE}/src/lib.rt"] = ROOT + "".join(sorted(mods, key=lambda it: it.split()[-1])) + "\npub use all::example_of;\npub use example::Example;\n"
    return out
