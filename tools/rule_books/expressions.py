"""The words of a description: places, conditions and tests.

A place is a tuple of steps: ("member", NAME), ("item",), ("each",), ("name",) and ("when", ORIGIN, WAY, HOLDS, CHECK). A test and a check
are a word of the machinery with its arguments.
"""
import itertools
import re

LARGEST, SMALLEST = 2**64 - 1, -(2**63)
NAMESPACES = ("linux", "namespaces")


class Wrong(Exception):
    """A description that cannot be read."""


def tokens(text):
    """The brackets, quoted texts and words of an expression."""
    for found in re.finditer(r'"([^"]*)"|([()\[\]])|([^\s()\[\]"]+)', text):
        yield ("quoted", found[1]) if found[1] is not None else ("bracket", found[2]) if found[2] else ("word", found[3])


def read(text):
    """An expression as nested lists of strings; a bracketed list is a tuple."""
    stack = [[]]
    for kind, word in tokens(text):
        if kind == "bracket" and word in "([":
            stack.append([])
        elif kind == "bracket":
            if len(stack) < 2:
                raise Wrong(f"a bracket too many: {text}")
            done = stack.pop()
            stack[-1].append(done if word == ")" else tuple(done))
        else:
            stack[-1].append(word)
    if len(stack) != 1:
        raise Wrong(f"a bracket is open: {text}")
    return stack[0]


def way(text):
    """The names on a way through objects; `.` is the value itself."""
    return () if text == "." else tuple(text.split("/"))


def places(text):
    """The places of a description: each with its steps."""
    out = []
    for place in text.split():
        if place.startswith("/"):
            raise Wrong(f"a place begins with a name: {place}")
        found = re.split(r"/(?![^(]*\))", place) if place != "." else []
        choices = [segment(it) for it in found]
        out += [tuple(steps) for steps in itertools.product(*choices)]
    return out


def segment(text):
    """The steps of which one is taken at this point of a place."""
    if text == "*":
        return [("item",)]
    if text == "{}":
        return [("each",)]
    found = re.fullmatch(r"([^(]*)\(([^)]*)\)(.*)", text)
    return [("member", found[1] + it + found[3]) for it in found[2].split(",")] if found else [("member", text)]


class Reader:
    """Reads conditions and tests, with the lists and grammars that a description names."""

    def __init__(self, lists, grammars):
        self.lists, self.grammars = lists, grammars

    def texts(self, word):
        if isinstance(word, tuple):
            return word
        if word not in self.lists:
            raise Wrong(f"no list {word}")
        return self.lists[word]

    def condition(self, parts, holds):
        """A condition as a step."""
        word, *rest = parts
        if word == "new":
            return ("when", "document", NAMESPACES, holds, ("lists_item", "type", (rest[0],), (), ("path",)))
        if word == "joined":
            return ("when", "document", NAMESPACES, holds, ("lists_item", "type", (rest[0],), ("path",), ()))
        if word == "namespace":
            return ("when", "document", NAMESPACES, holds, ("lists_item", "type", (rest[0],), (), ()))
        checks = {"has": lambda: ("there",), "is": lambda: ("one_of", self.texts(rest[1])), "true": lambda: ("boolean", True),
                  "between": lambda: ("within", int(rest[1]), int(rest[2])), "lists": lambda: ("lists", self.texts(rest[1])),
                  "item": lambda: ("lists_item", rest[1], self.texts(rest[2]), (), ())}
        if word == "lacks":
            return ("when", "part", way(rest[0]), not holds, ("there",))
        if word not in checks:
            raise Wrong(f"no condition {word}")
        return ("when", "part", way(rest[0]), holds, checks[word]())

    def test(self, parts):
        """The steps that a test takes on its own, and what it asks at their end."""
        word, *rest = parts
        if word in ("when", "unless"):
            steps, test = self.test(rest[1])
            return (self.condition(rest[0], word == "when"), *steps), test
        if word == "at":
            steps, test = self.inner(rest[1:])
            (before,) = places(rest[0])
            return (*before, *steps), test
        if word == "names":
            steps, test = self.inner(rest)
            return (("name",), *steps), test
        return (), self.plain(word, rest)

    def inner(self, rest):
        return self.test(rest[0] if len(rest) == 1 and isinstance(rest[0], list) else rest)

    def plain(self, word, rest):
        if word == "text":
            if rest[0] not in self.grammars:
                raise Wrong(f"no grammar {rest[0]}")
            return ("text", self.grammars[rest[0]])
        if word in ("one_of", "none_of", "lists"):
            return (word, self.texts(rest[0]))
        if word == "reserved":
            return (word, rest[0], self.texts(rest[1]))
        if word == "spdx_identifiers":
            return (word, self.texts(rest[0]), self.texts(rest[1]))
        if word == "within":
            return (word, int(rest[0]), int(rest[1]))
        if word == "at_least":
            return ("within", int(rest[0]), LARGEST)
        if word == "boolean":
            return (word, rest[0] == "true")
        if word == "length_at_most":
            return (word, int(rest[0]))
        if word == "sum_at_most":
            return (word, rest[0], rest[1], int(rest[2]))
        if word == "distinct":
            return (word, self.key(rest[0]))
        if word == "either":
            return (word, tuple(rest))
        if word == "as_many":
            first, name, second = rest
            return (word, way(first), name, way(second))
        counts = {"begins": 1, "there": 1, "absent": 1, "not_null": 1, "boolean_member": 1, "not_empty": 0, "apart": 1, "at_most": 2, "versions_in_order": 2, "lists_item": 2, "among": 2}
        if counts.get(word) != len(rest):
            raise Wrong(f"no test {word} of {len(rest)}")
        return (word, *rest)

    def key(self, parts):
        if parts in ("itself", "entry_name"):
            return (parts,)
        if parts[0] == "members":
            return ("members", tuple(way(it) for it in parts[1:]))
        raise Wrong(f"no key {parts}")
