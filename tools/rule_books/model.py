"""The model of rules: files of descriptions, tools/rules/*.rules."""
import glob
import os

from rule_books.expressions import Reader, Wrong, places
from rule_books.tree import JOINED

LEVELS = ("must", "stated", "should", "host")
PLATFORMS = ("linux", "windows", "solaris", "vm", "zos", "freebsd")
POSIX = tuple(it for it in PLATFORMS if it != "windows")


class Line:
    """A line of a book: a rule at one place with one test, and what people read of it."""

    def __init__(self, description, steps, test, wanted):
        self.description, self.steps, self.test, self.wanted = description, steps, test, wanted

    def beneath(self, steps):
        return Line(self.description, (*steps, *self.steps), self.test, self.wanted)


class Description:
    """What one line of a file says: a rule with its places and tests."""

    def __init__(self, cells, reader):
        if len(cells) != 8:
            raise Wrong(f"{len(cells)} cells, not 8: {' | '.join(cells)[:100]}")
        self.name, self.level, self.section, self.where, platforms, self.asked, self.peers, wanted = cells
        if self.level not in LEVELS:
            raise Wrong(f"{self.name}: no level {self.level}")
        self.platforms = PLATFORMS if platforms == "-" else POSIX if platforms == "posix" else tuple(platforms.split())
        if not set(self.platforms) <= set(PLATFORMS):
            raise Wrong(f"{self.name}: no platforms {platforms}")
        self.section = "common practice" if self.section == "-" else self.section
        self.peers = "" if self.peers == "-" else self.peers
        self.wants = split(wanted)
        try:
            tests = [reader.test(parts(it)) for it in split(self.asked)]
            if len(self.wants) not in (1, len(tests)):
                raise Wrong(f"{len(tests)} tests, and {len(self.wants)} texts of what is wanted")
            wants = self.wants if len(self.wants) > 1 else self.wants * len(tests)
            self.lines = [Line(self, once((*place, *steps)), test, each) for (steps, test), each in zip(tests, wants) for place in places(self.where)]
        except (Wrong, IndexError, ValueError) as wrong:
            raise Wrong(f"{self.name}: {wrong}") from wrong


def once(steps):
    """The steps with what is asked of the whole document in front, so that it is not asked again of each part."""
    return tuple(sorted(steps, key=lambda it: it[:2] != ("when", "document")))


def split(text):
    return [it.strip() for it in text.split(" ; ")]


def parts(text):
    from rule_books.expressions import read

    return read(text)


def tuples(line):
    """The lists of texts that a line names."""
    for step in line.steps:
        if step[0] == "when":
            yield from (it for it in step[4] if isinstance(it, tuple))
    yield from (it for it in line.test if isinstance(it, tuple))


class Group:
    """A set of rules, which stands wherever it is included, or a book, which is one constant of the code."""

    def __init__(self, kind, name, file):
        self.kind, self.name, self.file, self.entries = kind, name, file, []

    @property
    def word(self):
        return self.name.replace("-", "_")

    def descriptions(self):
        return [it for it in self.entries if isinstance(it, Description)]

    def included(self):
        return [it for it in self.entries if not isinstance(it, Description)]

    def lines(self, groups):
        """All lines, those of included sets with the longer places."""
        for entry in self.entries:
            if isinstance(entry, Description):
                yield from entry.lines
            else:
                steps, name = entry
                for line in groups[name].lines(groups):
                    yield line.beneath(steps)


class Model:
    def __init__(self, folder):
        self.lists, self.grammars, self.groups, self.kinds, self.files = {}, {}, {}, {}, {}
        self.about, self.list_about, self.crate, self.beside = {}, {}, {}, []
        self.versions = ""
        reader = Reader(self.lists, self.grammars)
        paths = sorted(glob.glob(os.path.join(folder, "*.rules")), key=lambda it: (os.path.basename(it) != "lists.rules", it))
        for path in paths:
            self.read(path, reader)
        for group in self.groups.values():
            for steps, name in group.included():
                if name not in self.groups or self.groups[name].kind != "set":
                    raise Wrong(f"{group.name}: no set {name}")

    def read(self, path, reader):
        file = os.path.basename(path)[: -len(".rules")]
        group, self.remark = None, ""
        with open(path, encoding="utf-8") as text:
            for number, line in enumerate(text, 1):
                line = line.rstrip("\n")
                if line.startswith("#"):
                    self.remark = line.lstrip("# ")
                    self.about.setdefault(file, self.remark)
                if not line.strip() or line.startswith("#"):
                    continue
                try:
                    group = self.line(line, file, group, reader)
                except Wrong as wrong:
                    raise SystemExit(f"{os.path.basename(path)}:{number}: {wrong}") from None

    def line(self, line, file, group, reader):
        word, _, rest = line.partition(" ")
        if " | " in line:
            group.entries.append(Description([it.strip() for it in line.split(" | ")], reader))
            return group
        if word == "list":
            name, _, texts = rest.partition(" = ")
            self.lists[name] = tuple(texts.split())
            self.list_about[name] = self.remark
        elif word == "crate":
            self.crate[file] = rest
        elif word == "versions":
            self.versions = rest
        elif word == "beside":
            self.beside += rest.split()
        elif word == "grammar":
            name, _, variant = rest.partition(" = ")
            self.grammars[name] = variant
        elif word in ("set", "book"):
            group = self.groups[rest] = Group(word, rest, file)
            self.files.setdefault(file, []).append(group)
        elif word == "include":
            place, name = rest.split()
            group.entries += [(steps, name) for steps in places(place)]
        elif word == "kind":
            kind, _, shape_and_books = rest.partition(" = ")
            shape, *books = shape_and_books.split()
            self.kinds[kind] = (shape, books)
        else:
            raise Wrong(f"no line {word}")
        return group

    def crates(self):
        return list(dict.fromkeys(sorted(self.crate.values())))

    def descriptions_of(self, crate):
        """The descriptions of a crate's files."""
        return [it for group in self.groups.values() if self.crate[group.file] == crate for it in group.descriptions()]

    def lists_of(self, crate):
        """The lists that a crate's rules name."""
        named = {texts for it in self.descriptions_of(crate) for line in it.lines for texts in tuples(line)}
        return [name for name, texts in self.lists.items() if texts in named]

    def joined_of(self, crate):
        """The lists that a crate's rules name as words of one text."""
        joined = {texts for it in self.descriptions_of(crate) for line in it.lines if line.test[0] in JOINED for texts in tuples(line)}
        return [name for name, texts in self.lists.items() if texts in joined]

    def rules(self):
        """All descriptions of a name, by it, in the order of the files."""
        out = {}
        for group in self.groups.values():
            for it in group.descriptions():
                out.setdefault(it.name, []).append(it)
        return out

    def books_of(self, kind):
        """The books of a kind."""
        return [self.groups[it] for it in self.kinds[kind][1]]
