"""The model of enums, closed and extensible."""
from generator.text import snake


class Variant:
    def __init__(self, line):
        words, _, self.what = line.partition(" | ")
        words = words.split()
        self.default = "*" in words
        self.name, self.text, *number = [w for w in words if w != "*"]
        self.number = number[0] if number else None
        self.shown = self.text


class Name:
    def __init__(self, name, crate, is_open=False):
        self.name, self.word, self.crate, self.is_open = name, snake(name), crate, is_open
        self.title, self.about, self.variants, self.marks, self.number, self.refusal = "", [], [], set(), None, None
        self.noun, self.table, self.by_hand, self.public = "", "", [], {}

    def default(self):
        return next((v for v in self.variants if v.default), None)

    def shows(self):
        """Whether it displays some variant as another text than its JSON string."""
        return any(v.shown != v.text for v in self.variants)

    def apart(self):
        """The variants of which that is so."""
        return [v for v in self.variants if v.shown != v.text]

    def described(self, word, rest):
        """Takes one line of its description."""
        if word == "title":
            self.title = rest
        elif word == "about":
            self.about.append(rest)
        elif word in ("number", "noun", "table"):
            setattr(self, word, rest)
        elif word == "by_hand":
            self.by_hand = rest.split()
        elif word == "public":
            part, *items = rest.split()
            self.public[part] = items
        elif word == "try_from":
            self.refusal = rest.split(" | ")
        elif word == "shown":
            variant, text = rest.split()
            next(v for v in self.variants if v.name == variant).shown = text
        elif word == "v":
            self.variants.append(Variant(rest))
        else:
            self.marks.add(word)


def read(path):
    """The crate that a file describes, its enums, and its integer types."""
    crate, names, integers = "", [], []
    for line in open(path, encoding="utf-8"):
        word, _, rest = line.strip().partition(" ")
        if not word or word.startswith("#"):
            continue
        if word == "crate":
            crate = rest
        elif word == "integers":
            integers = rest.split()
        elif word in ("name", "open"):
            names.append(Name(rest, crate, word == "open"))
        else:
            names[-1].described(word, rest)
    return crate, names, integers
