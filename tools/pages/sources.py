"""Reads the Rattle sources of this repository: what each crate declares, with documentation and contracts, and what a name stands for.

The sources are read as `rt fmt` lays them out: an item begins at the left margin of its block, and ends at a line there. Nothing of a
body is read.
"""
import functools
import os
import re

import repository

TOP = repository.TOP
WORDS = r"(?:pub(?:\(\w+\))? )?(?:const (?=fn))?(?:extern \"C\" )?(fn|struct|enum|trait|const|static|type|mod|macro_rules!)(?= )"


def paragraphs(lines):
    """The text of comment lines, with an empty line between paragraphs."""
    return re.sub(r" *\0[ \0]*", "\n\n", " ".join(line.strip() or "\0" for line in lines))


class Item:
    """A declaration: its kind, name and text, its documentation, and the crate and module that it stands in."""

    def __init__(self, crate, module, doc, attributes, lines):
        self.crate, self.module, self.doc, self.attributes, self.lines = crate, module, paragraphs(doc), attributes, lines
        self.public = lines[0].startswith("pub ")
        named = re.match(WORDS + r" (\w+)", lines[0])
        self.kind, self.name = (named[1], named[2]) if named else (re.match(r"(?:pub )?(\w*)", lines[0])[1], None)

    def inner(self):
        """The items of a block: of a trait, an impl, or an enum's or struct's body."""
        return [Item(self.crate, self.module, *part) for part in split([line[4:] for line in self.lines[1:-1]])]

    def head(self):
        """What stands before a block, on one line."""
        return re.sub(r"\s+", " ", "\n".join(self.lines).partition("{")[0]).strip()

    def derives(self):
        found = re.search(r"#\[derive\(([^)]*)\)", " ".join(self.attributes))
        return [word.strip() for word in found[1].split(",") if word.strip()] if found else []

    def contract(self):
        """A call without its body: its signature with its clauses, line by line."""
        lines = []
        for line in self.lines:
            if line in ("{", "{}"):
                break
            lines.append(line)
            if re.search(r" \{\}?$", line) and not line.startswith(" "):
                lines[-1] = re.sub(r" \{\}?$", "", line)
                break
        return [re.sub(r";$", "", line) if line is lines[-1] else line for line in lines]

    def signature(self):
        """The signature on one line, as it would be written in one."""
        text = " ".join(line.strip() for line in self.contract() if not re.match(r"\s+(requires|ensures)\b", line))
        text = re.split(r" (?:requires|ensures)\*? ", text)[0]
        return re.sub(r",? \)", ")", re.sub(r"\( ", "(", text))

    def clauses(self):
        """The clauses of a call: of each the word, the name (empty where it has none) and the text on one line."""
        text, found = "\n".join(self.contract()), []
        for clause in re.finditer(r"\n\s+((?:requires|ensures)\*?)\s*(\w*)\s*\{", text):
            end = closing(text, clause.end() - 1)
            found.append((clause[1], clause[2], re.sub(r"\s+", " ", text[clause.end():end]).strip()))
        return found


def closing(text, at):
    """Where the brace at this place is closed."""
    depth = 0
    for place in range(at, len(text)):
        depth += {"{": 1, "}": -1}.get(text[place], 0)
        if depth == 0:
            return place
    return len(text)


def split(lines):
    """The items of a block: of each its documentation, its attributes and its lines."""
    doc, attributes, at = [], [], 0
    while at < len(lines):
        line = lines[at]
        begun = at
        at += 1
        if line.startswith("///"):
            doc.append(line[3:].strip())
        elif line.startswith("#"):
            while "".join(lines[begun:at]).count("[") > "".join(lines[begun:at]).count("]"):
                at += 1
            attributes.append(" ".join(part.strip() for part in lines[begun:at]))
        elif line.strip() and not line.startswith("//"):
            at = item_end(lines, begun)
            yield doc, attributes, lines[begun:at]
            doc, attributes = [], []


def item_end(lines, begun):
    """The place behind the item that begins here."""
    if not re.match(WORDS + r"|(pub )?use\b|impl\b|ghost\b", lines[begun]):
        return part_end(lines, begun)
    depth, opened = 0, False
    for at in range(begun, len(lines)):
        line, flat = lines[at], not lines[at].startswith(" ")
        if opened and flat and line.startswith(("}", "]", ")")) and not line.endswith(("{", "(", "[")):
            return at + 1
        depth += line.count("{") - line.count("}")
        if not opened and depth == 0 and (line.endswith((";", "{}")) or flat and is_whole_block(lines[begun], line)):
            return at + 1
        opened = opened or flat and line.endswith("{") and (depth == 1 or line == "{")
    return len(lines)


def is_whole_block(first, line):
    """Whether a line holds a block as a whole, as `impl Eq for X {}`; a clause ends so too, but belongs to a call."""
    return line.endswith("}") and not re.match(r"(pub(\(\w+\))? )?(const )?fn\b", first)


def part_end(lines, begun):
    """The place behind the field or variant that begins here."""
    depth = 0
    for at in range(begun, len(lines)):
        depth += len(re.findall(r"[{(\[]", lines[at])) - len(re.findall(r"[})\]]", lines[at]))
        if depth <= 0 and lines[at].endswith(","):
            return at + 1
    return len(lines)


class Crate:
    """A crate's modules: of each, by its path, what it declares; its tests if they are asked for."""

    def __init__(self, name, tests=False):
        self.name, self.modules, self.about, self.tests = name, {}, {}, tests
        folder = os.path.join(TOP, "crates", name, "src")
        root = next(it for it in ("lib.rt", "main.rt") if os.path.exists(f"{folder}/{it}"))
        self.is_program = repository.crates()[name].is_run()
        self.read(folder, (), f"{folder}/{root}")

    def read(self, folder, module, path):
        with open(path, encoding="utf-8") as file:
            lines = file.read().split("\n")
        self.about[module] = paragraphs([line[3:] for line in lines if line.startswith("//!")])
        self.modules[module] = [Item(self.name, module, *part) for part in split(lines)]
        for item in self.modules[module]:
            if item.kind == "mod" and item.lines[0].endswith(";") and (self.tests or "#[cfg(test)]" not in item.attributes):
                self.read(folder, (*module, item.name), f"{folder}/{'/'.join((*module, item.name))}.rt")

    def impls(self):
        return [item for items in self.modules.values() for item in items if item.kind == "impl"]


@functools.lru_cache(None)
def crate(name):
    """The crate of this name, or None where it is the kit's."""
    return Crate(name) if os.path.isdir(os.path.join(TOP, "crates", name, "src")) else None


def crates():
    """All crates of this repository."""
    names = sorted(os.listdir(os.path.join(TOP, "crates")))
    return [it for it in map(crate, names) if it]


def imports(item):
    """What a `use` brings in: pairs of a name and the path that it stands for."""
    if item.kind != "use":
        return []
    text = re.sub(r"\s+", " ", " ".join(item.lines)).rstrip(";")
    path, _, names = re.sub(r"^(pub )?use ", "", text).partition("{")
    if not names:
        path, _, alias = path.partition(" as ")
        return [(alias or path.rpartition("::")[2], path.split("::"))]
    found = []
    for name in names.rstrip("} ").split(","):
        name, _, alias = name.strip().partition(" as ")
        if name:
            found.append((alias or name, (path + name).split("::")))
    return found


def place_of(owner, module, path):
    """The crate and the module that a path leads to, seen from a module; None where it leaves the repository."""
    first, rest = path[0], tuple(path[1:])
    if first == "crate":
        return owner, rest
    if first in ("self", "super"):
        return owner, (module if first == "self" else module[:-1]) + rest
    if (*module, first) in owner.modules:
        return owner, (*module, *path)
    other = crate(first)
    return (other, rest) if other else None


@functools.lru_cache(None)
def resolve(owner, module, name):
    """What a name stands for in a module: an item of this repository, the path of one of the kit, or None."""
    for item in owner.modules.get(module, ()):
        if item.name == name and item.kind not in ("mod", "use", "impl", "ghost"):
            return item
    for item in owner.modules.get(module, ()):
        for alias, path in imports(item):
            if alias == name:
                found = place_of(owner, module, path)
                return resolve(found[0], found[1][:-1], path[-1]) if found else "::".join(path)
    return None


def imported(owner, module):
    """What a module re-exports: of each name what it stands for."""
    return {alias: resolve(owner, module, alias) for item in owner.modules[module] if item.public for alias, _ in imports(item)}


def public_names(owner, module):
    """What a module offers: pairs of a name and the item that it stands for, in order of names, modules left out."""
    found = {item.name: item for item in owner.modules[module] if item.public and item.name and item.kind != "mod"}
    found.update({name: item for name, item in imported(owner, module).items() if isinstance(item, Item)})
    return sorted(found.items(), key=lambda it: it[0].lower())


def names_of_the_kit(owner, module):
    """What a module re-exports of the kit: of each name the path that it stands for."""
    return {name: path for name, path in imported(owner, module).items() if isinstance(path, str)}


def unknown_names(owner, module):
    """What a module re-exports and nothing declares."""
    modules = {name for name, _, _ in public_modules(owner, module)}
    return [name for name, item in imported(owner, module).items() if item is None and name not in modules]


def public_modules(owner, module=()):
    """The public modules below a module: of each its name, its crate and its path there."""
    found = []
    for item in owner.modules[module]:
        if item.kind == "mod" and item.public:
            found.append((item.name, owner, (*module, item.name)))
        for alias, path in imports(item) if item.public else ():
            place = place_of(owner, module, path)
            if place and place[1] in place[0].modules and not resolve(owner, module, alias):
                found.append((alias, *place))
    return found


@functools.lru_cache(None)
def impls_by_type():
    """The impls of this repository, by the item that they are for."""
    found = {}
    for owner in crates():
        for impl in owner.impls():
            of = impl.head().rpartition(" for ")[2] if " for " in impl.head() else re.sub(r"^impl(<.*?>)? ", "", impl.head())
            name = re.match(r"&?(?:'\w+ )?(?:\w+::)*(\w+)", of)
            target = resolve(owner, impl.module, name[1]) if name else None
            if target:
                found.setdefault(target, []).append(impl)
    return found
