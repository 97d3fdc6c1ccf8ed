"""The original crate's source, taken apart: structs and enums with their attributes, bodies of functions, constants."""
import os
import re

ATTRIBUTES = r"(?:#\[(?:[^\[\]\"]|\"(?:\\.|[^\"\\])*\"|\[[^\]]*\])*\]\s*)*"
OPENING, CLOSING = "([{<", ")]}>"


def bare(text):
    """The text without comments and without its tests."""
    text = re.sub(r'("(?:\\.|[^"\\])*")|//[^\n]*|/\*.*?\*/', lambda it: it.group(1) or "", text, flags=re.S)
    return re.split(r"#\[cfg\(test\)\]\s*mod ", text)[0]


def files(top):
    """The files of the crate: path below `src`, text."""
    found = {}
    for folder, _, names in sorted(os.walk(top)):
        for name in sorted(names):
            path = os.path.join(folder, name)
            if name.endswith(".rs"):
                with open(path, encoding="utf-8") as it:
                    found[os.path.relpath(path, top)] = bare(it.read())
    return found


def closing(text, start):
    """The place of the bracket that closes the one at `start`."""
    depth, place = 0, start
    while True:
        if text[place] == '"':
            place = re.compile(r'"(?:\\.|[^"\\])*"').match(text, place).end() - 1
        elif text[place] in "([{":
            depth += 1
        elif text[place] in ")]}":
            depth -= 1
            if depth == 0:
                return place
        place += 1


def parts(text, mark=","):
    """What stands between the marks that are in no bracket."""
    found, depth, start, place = [], 0, 0, 0
    while place < len(text):
        if text[place] == '"':
            place = re.compile(r'"(?:\\.|[^"\\])*"').match(text, place).end() - 1
        elif text[place] in OPENING:
            depth += 1
        elif text[place] in CLOSING and text[place - 1] not in "-=":
            depth -= 1
        elif text[place] == mark and depth == 0:
            found.append(text[start:place].strip())
            start = place + 1
        place += 1
    return [it for it in found + [text[start:].strip()] if it]


def attribute(attributes, owner, name):
    """The text of `name = "TEXT"` within the attributes `owner`, or the name alone where it has no text, or None."""
    for inner in re.findall(rf"#\[{owner}\(((?:[^\"\]]|\"[^\"]*\")*)\)\]", attributes):
        for it in parts(inner):
            key, _, value = it.partition("=")
            if key.strip() == name:
                return value.strip().strip('"') or name
    return None


def attribute_all(attributes, owner, name):
    """All texts of `name = "TEXT"` within the attributes `owner`."""
    inners = re.findall(rf"#\[{owner}\(((?:[^\"\]]|\"[^\"]*\")*)\)\]", attributes)
    pairs = [it.partition("=") for inner in inners for it in parts(inner)]
    return [value.strip().strip('"') for key, _, value in pairs if key.strip() == name]


def derives(attributes, name):
    """Whether the attributes derive this."""
    return any(name in parts(it) for it in re.findall(r"#\[derive\(([^)]*)\)\]", attributes))


class Member:
    """A field of a struct, or a variant of an enum."""

    def __init__(self, text):
        marks = re.match(ATTRIBUTES, text).end()
        self.attributes, rest = text[:marks], text[marks:].strip().removeprefix("pub ")
        self.name = re.match(r"\w+", rest).group()
        self.rest = rest[len(self.name):].strip()


class Declared:
    """A struct or an enum: its file, attributes, members."""

    def __init__(self, path, kind, name, attributes, body):
        self.path, self.kind, self.name, self.attributes = path, kind, name, attributes
        self.members = [Member(it) for it in parts(body)]
        if kind == "struct":
            for it in self.members:
                it.type = it.rest.removeprefix(":").strip()


class Crate:
    """All of the source by name. A name that two modules have, `Arch`, is that of the image module."""

    def __init__(self, top):
        self.files = files(top)
        self.declared = {}
        for path, text in self.files.items():
            for it in re.finditer(rf"({ATTRIBUTES})pub (struct|enum) (\w+)\s*\{{", text):
                name = "SArch" if (it[3], path) == ("Arch", "runtime/linux.rs") else it[3]
                body = text[it.end():closing(text, it.end() - 1)]
                self.declared[name] = Declared(path, it[2], name, it[1], body)

    def body(self, path, head):
        """The body after a head, such as `impl Default for User`, or None."""
        found = re.search(re.escape(head) + r"[^{;]*\{", self.files[path])
        return found and self.files[path][found.end():closing(self.files[path], found.end() - 1)]

    def default_body(self, name):
        """The body of a `default` that is written by hand, or None."""
        it = self.declared[name]
        whole = self.body(it.path, f"impl Default for {name} ")
        if whole is None:
            return None
        start = whole.index("{", whole.index("fn default()"))
        return whole[start + 1:closing(whole, start)].strip()

    def function(self, name):
        """The body of a function that stands outside all types."""
        for path in self.files:
            found = self.body(path, f"pub fn {name}()")
            if found is not None:
                return found.strip()
        raise KeyError(name)

    def constants(self):
        """Path, name and text of each constant, public or not; a formatted one is put together of the others of its file."""
        for path, text in self.files.items():
            known = {}
            for name, value in re.findall(r"const (\w+): [^=]+= ([^;]*);", text):
                if value.startswith("formatcp!"):
                    value = '"' + re.sub(r"\{(\w+)\}", lambda it: known[it[1]], value[len("formatcp!("):-1].strip('"')) + '"'
                known[name] = value.strip('"')
                if not value.startswith(("r\"", "r#", "&")):
                    yield path, name, known[name]
