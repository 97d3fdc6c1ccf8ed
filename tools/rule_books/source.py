"""The constants of the code: a file for each book, with the rules at their whole places, a few in each constant.

What a constant means is proved in a time that grows with the square of its strings, and a book's call in one that grows with its constants.
"""
import re

from rule_books import tree
from rule_books.model import PLATFORMS, POSIX
from rule_books.tree import pascal

VARIANTS = {"linux": "Linux", "windows": "Windows", "solaris": "Solaris", "vm": "Vm", "zos": "Zos", "freebsd": "FreeBsd"}
LEVELS = {"must": "Must", "stated": "Stated", "should": "Should", "host": "Host"}
TYPES = ("Condition", "Key", "Level", "Origin", "Predicate", "Step", "Test")
# the rules of one constant
MOST = 3


class Code(tree.Printer):
    """What the code says of places and tests."""

    def text(self, it):
        return f'"{it}"'

    def integer(self, it):
        return str(it)

    def list_name(self, name):
        return name.upper()

    def listing(self, items):
        return f"&[{', '.join(items)}]"

    def call(self, it, arguments):
        if it.fields:
            return f"{it.code} {{ {', '.join(f'{name}: {each}' for name, each in zip(it.fields, arguments))} }}"
        return f"{it.type}::{it.code}" + (f"({', '.join(arguments)})" if arguments else "")


def platforms(items):
    """The platforms of a rule."""
    if items == PLATFORMS:
        return "Platforms::Every"
    return f"Platforms::These({'POSIX' if items == POSIX else array([f'RuntimePlatform::{VARIANTS[it]}' for it in items])})"


def array(items):
    return f"&[{', '.join(items)}]"


# what a rule's line in a book's file is
MACRO = """/// A rule: its name, level, section and what is wanted; its platforms; its place; its test.
macro_rules! rule {
    ($name:literal, $level:ident, $section:literal, $wanted:literal, $platforms:expr, [$($step:expr),*], $test:expr) => {
        Rule { name: $name, level: Level::$level, section: $section, wanted: $wanted, platforms: $platforms, place: &[$($step),*], test: $test }
    };
}
"""


def rule(line, code):
    it = line.description
    steps = ", ".join(code.shown(tree.step(s)) for s in line.steps)
    return (f"    rule! {{ {code.text(it.name)}, {LEVELS[it.level]}, {code.text(it.section)}, {code.text(line.wanted)}, {platforms(it.platforms)},\n"
            f"        [{steps}],\n        {code.shown(tree.test(line.test))} }},\n")


def parts(group, model):
    """The lines of a book as runs of about the same length, of at most MOST."""
    lines = list(group.lines(model.groups))
    count = -(-len(lines) // MOST)
    size = -(-len(lines) // count)
    return [lines[at : at + size] for at in range(0, len(lines), size)]


def imports(rules, group, model):
    """The imports of a book's file, by the words that its rules have."""
    crate = model.crate[group.file]
    words = set(re.findall(r"\w+", re.sub(r'"[^"]*"', "", rules)))
    shared = [it for it in ("POSIX", *(it.upper() for it in model.lists_of(crate))) if it in words]
    types = sorted({"Rule", "Level", *(it for it in ("Platforms", "RuntimePlatform", *TYPES) if it in words)})
    out = "ghost use Rattle.std.specs.Prelude.{◌≡◌, map};\nghost use Rattle.std.specs.List.{flat_map};\nghost use Rattle.oci_rules.specs.Tables.{rule_of};\n"
    out += f"ghost use Rattle.{crate}.specs.{pascal(group.file)} as defined;\n\n"
    out += f"use crate::lists::{{{', '.join(sorted(shared))}}};\n" if shared else ""
    out += "use oci_grammars::Grammar;\n" if "Grammar" in words else ""
    return out + f"use oci_rules::{{{', '.join(types)}}};\n\n"


def book(group, model):
    """The file of a book."""
    code = Code({texts: name for name, texts in model.lists.items()})
    runs = parts(group, model)
    rules = ["".join(rule(it, code) for it in run) for run in runs]
    names = [f"RULES_{number}" for number in range(1, len(runs) + 1)] if len(runs) > 1 else ["RULES"]
    title = group.name.replace("-", " ")
    out = f"//! The book of {title}.\n" + imports("".join(rules), group, model)
    out += "".join(f"static {name}: [Rule<'static>; {len(run)}] = [\n{text}];\n\n" for name, run, text in zip(names, runs, rules))
    out += f"/// Returns the book of {title}, a few rules in each slice.\npub fn {group.word}_rules() -> [&'static [Rule<'static>]; {len(runs)}]\n"
    out += f"    ensures {{ flat_map (λ b. map rule_of b.now) result ≡ defined.{group.word}_rules }}\n{{\n"
    return out + f"    [{', '.join(f'&{name}' for name in names)}]\n}}\n"


def lists(model, crate):
    out = "//! Lists of platforms and of texts that rules name.\n"
    if any(it.platforms == POSIX for it in model.descriptions_of(crate)):
        out += f"use oci_rules::RuntimePlatform;\n\n/// All but Windows.\npub(crate) const POSIX: &[RuntimePlatform] = {array([f'RuntimePlatform::{VARIANTS[it]}' for it in POSIX])};\n"
    for name in model.lists_of(crate):
        joined = name in model.joined_of(crate)
        kind, value = ("&str", f'"{" ".join(model.lists[name])}"') if joined else ("&[&str]", array([f'"{it}"' for it in model.lists[name]]))
        out += f"\n/// {model.list_about[name]}\npub(crate) const {name.upper()}: {kind} = {value};\n"
    return out


ABOUT = {
    "oci_rule_books": "The books of rules: of image and distribution documents, and of containers' configurations, states and features; and which books the\n//! documents of each kind have.",
}


def books(model):
    """All books."""
    return [it for groups in model.files.values() for it in groups if it.kind == "book"]


def root(model, crate):
    """The root file of a crate of books."""
    words = sorted(it.word for it in books(model) if model.crate[it.file] == crate)
    out = f"//! {ABOUT[crate]}\n#![tactic(auto)]\n\n{MACRO}\n" + "".join(f"mod {it};\n" for it in sorted([*words, "lists"])) + "pub mod kinds;\npub mod laws;\n"
    out += "\npub use kinds::rules_of;\n"
    return out + f'\n/// The specifications whose texts the rules hold to, with their versions.\npub const VERSIONS: &str = "{model.versions}";\n'


def files(model):
    """All files of code, by their paths."""
    out = {}
    for group in books(model):
        out[f"crates/{model.crate[group.file]}/src/{group.word}.rt"] = book(group, model)
    for crate in model.crates():
        out[f"crates/{crate}/src/lists.rt"] = lists(model, crate)
        out[f"crates/{crate}/src/lib.rt"] = root(model, crate)
    return out
