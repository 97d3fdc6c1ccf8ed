"""The definitions of a file of rules: a list of rules for each set and each book, a line for each rule at each place."""
import re

from rule_books import tree
from rule_books.model import PLATFORMS, POSIX, Description
from rule_books.tree import pascal

PRELUDE = ("ℕ", "List", "[]", "◌∷◌", "◌++◌", "◌≡◌", "map", "codes", "pos", "negsuc", "true", "false")
WORDS = ("Rule", "Platform", "linux", "windows", "solaris", "vm", "zos", "freebsd", "must", "stated", "should", "host", "here", "under", "each_item",
         "each_member", "each_name", "if_so", "asks", "the_part", "the_document", "is_there", "is_text", "is_truth", "is_within", "has_text", "has_item",
         "text", "spdx_identifiers", "one_of", "none_of", "begins", "reserved", "within", "truth", "there", "absent", "not_null", "boolean_member", "either", "not_empty",
         "length_at_most", "at_most", "versions_in_order", "sum_at_most", "as_many", "lists", "lists_item", "apart", "distinct", "among", "itself", "members", "entry_name", "beneath")


class Specs(tree.Printer):
    """What definitions say of places and tests."""

    def text(self, it):
        return f'codes "{it}"'

    def integer(self, it):
        return f"pos {it}" if it >= 0 else f"negsuc {-it - 1}"

    def list_name(self, name):
        return name

    def listing(self, items):
        return "(" + "".join(f"{it} ∷ " for it in items) + "[])" if items else "[]"

    def call(self, it, arguments):
        return " ".join([it.spec, *(enclosed(each) for each in arguments)])

    def place(self, steps, end="here"):
        """A place: each step with the place behind it as its last argument."""
        out = end
        for it in reversed(steps):
            out = f"{self.shown(tree.step(it))} {enclosed(out)}"
        return out


def enclosed(text):
    return f"({text})" if " " in text and not text.startswith("(") else text


def platforms(items):
    return {PLATFORMS: "every", POSIX: "posix"}.get(items) or chain(items)


def chain(items):
    return "".join(f"{it} ∷ " for it in items) + "[]"


def rule(line, specs):
    it = line.description
    return (f"record {{ name = {specs.text(it.name)}; level = {it.level}; section = {specs.text(it.section)}; platforms = {platforms(it.platforms)}; "
            f"place = {specs.place(line.steps)}; test = {specs.shown(tree.test(line.test))} }}")


def runs(group):
    """The entries of a set or a book: runs of its own lines, and what it includes."""
    out = []
    for entry in group.entries:
        if not isinstance(entry, Description):
            out.append(entry)
        elif out and isinstance(out[-1], list):
            out[-1] += entry.lines
        else:
            out.append(list(entry.lines))
    return out


def body(group, model, specs):
    out = []
    for run in runs(group):
        if isinstance(run, list):
            out.append("".join(f"    {rule(it, specs)} ∷\n" for it in run) + "    []")
            continue
        steps, name = run
        word = model.groups[name].word + "_rules"
        out.append(f"    map (beneath (λ p. {specs.place(steps, 'p')})) {word}" if steps else f"    {word}")
    return "\n    ++\n".join(f"    ({it.strip()})" if len(out) > 1 and "\n" in it else it for it in out)


def about(group):
    return f"-- {'the rules of ' + group.name.replace('-', ' ') if group.kind == 'set' else 'the book of ' + group.name.replace('-', ' ')}"


def imports(text, model, file, crate):
    """The imports of a file's definitions, by the words that it has."""
    words = set(re.findall(r"[\w◌]+", re.sub(r'"[^"]*"', "", text)))
    prelude = [it for it in PRELUDE if it in words or (it == "[]" and "[]" in text) or (it == "◌∷◌" and "∷" in text) or (it == "◌++◌" and " ++" in text)
               or (it == "List" and "List" in words)]
    prelude = [it for it in prelude if it not in ("◌≡◌",)]
    out = f"use Rattle.std.specs.Prelude.{{{', '.join(prelude)}}}\n"
    variants = [it for it in dict.fromkeys(model.grammars.values()) if it in words]
    if variants:
        out += f"use Rattle.oci_grammars.specs.declared.grammar.Grammar.TheVariants.{{{', '.join(variants)}}}\n"
    used = [it for it in WORDS if it in words]
    out += f"use Rattle.oci_rules.specs.Rules.{{{', '.join(used)}}}\n"
    if "every" in words:
        out += "use Rattle.oci_rules.specs.Platforms.{every}\n"
    shared = [it for it in ("posix",) if it in words] + [it for it in model.lists if it in words]
    if shared:
        out += f"use Rattle.{crate}.specs.Lists.{{{', '.join(shared)}}}\n"
    for other, groups in model.files.items():
        names = [it.word + "_rules" for it in groups if it.word + "_rules" in words]
        if other != file and names:
            out += f"use Rattle.{crate}.specs.{pascal(other)}.{{{', '.join(names)}}}\n"
    return out


def named_lists(model, crate):
    """The lists that a crate's rules name, by their texts."""
    return {texts: name for name, texts in model.lists.items() if name in model.lists_of(crate)}


def files(model):
    """All definitions of all books, by their paths."""
    out = {}
    for crate in model.crates():
        specs = Specs(named_lists(model, crate))
        folder = f"crates/{crate}/specs"
        for file in model.files:
            if model.crate[file] != crate:
                continue
            text = "\n".join(f"{about(it)}\nabbrev pub {it.word}_rules : List Rule\n{it.word}_rules =\n{body(it, model, specs)}\n" for it in model.files[file])
            out[f"{folder}/{pascal(file)}.antt"] = f"-- {model.about[file]}\n{imports(text, model, file, crate)}\n{text}"
        out[f"{folder}/Lists.antt"] = lists(model, crate)
    return out


def lists(model, crate):
    """The platforms and lists of texts that a crate's rules name."""
    used = []
    if any(it.platforms == POSIX for it in model.descriptions_of(crate)):
        used.append(f"-- all but Windows\nabbrev pub posix : List Platform\nposix = {chain(POSIX)}\n")
    for name in model.lists_of(crate):
        if name in model.joined_of(crate):
            used.append(f'-- {model.list_about[name]}\nabbrev pub {name} : List ℕ\n{name} = codes "{" ".join(model.lists[name])}"\n')
        else:
            used.append(f"-- {model.list_about[name]}\nabbrev pub {name} : List (List ℕ)\n{name} =\n" + "".join(f'    codes "{it}" ∷\n' for it in model.lists[name]) + "    []\n")
    text = "\n".join(used)
    named = [it for it in ("Platform", *PLATFORMS) if it in re.findall(r"\w+", re.sub(r'"[^"]*"', "", text))]
    rules = f"use Rattle.oci_rules.specs.Rules.{{{', '.join(named)}}}\n" if named else ""
    return f"-- Lists of platforms and of texts that rules name.\n{imports(text, model, 'lists', 'none').splitlines()[0]}\n{rules}\n{text}"
