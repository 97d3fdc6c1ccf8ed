"""The sentences that rules have their levels from, tools/rules/sources.rows; `tools/peers sources --help` says what a row has."""
import os

# RFC 2119's words, and what deprecates, with the level of a rule that they ask for
WORDS = {
    "must": "must", "must not": "must", "required": "must", "should": "should", "should not": "should", "recommended": "should",
    "not recommended": "should", "deprecated": "should", "may": "host", "-": "stated",
}
# a reason that stands for a text which is not at hand, so that its word is not known
UNREAD = "whose text is not at hand"


class Row:
    """A sentence of a rule, or the reason that it has none."""

    def __init__(self, line):
        self.text = line
        cells = [it.strip() for it in line.split(" | ")]
        self.is_whole = len(cells) == 5
        self.name, self.version, self.place, self.word, self.last = cells if self.is_whole else [cells[0], *"----"]

    def is_reason(self):
        return self.version == "-"

    def level(self):
        """The level that the row gives; nothing where the text is not at hand."""
        if self.is_reason():
            return None if UNREAD in self.last else "should" if self.last.startswith("should: ") else "host"
        return WORDS.get(self.word)

    def said(self):
        """What gives the level: the word in its sentence, or the reason."""
        if self.is_reason():
            return self.last
        return {"-": "stated", "deprecated": "deprecated"}.get(self.word, self.word.upper())


def rows(root):
    """The rows of tools/rules/sources.rows."""
    with open(os.path.join(root, "tools/rules/sources.rows"), encoding="utf-8") as file:
        return [Row(line.rstrip("\n")) for line in file if line.strip() and not line.startswith("#")]


def first_rows(found):
    """The first row of each rule, which gives its level."""
    return {row.name: row for row in reversed(found)}


def differing(rules, found):
    """The rules whose level is not that of their first row, and those without a row, a line each."""
    first = first_rows(found)
    for name, lines in rules.items():
        row = first.get(name)
        if row is None:
            yield f"{name}: no row of sources.rows"
        elif row.level() not in (None, lines[0].level):
            yield f"{name}: {lines[0].level}, and " + ("no sentence asks for it" if row.is_reason() else f"by its sentence {row.level()}")


def of_other_versions(versions, found):
    """The rules whose first sentence is of a version that is not among those which the rules hold to, a line each."""
    listed = {name: row.version.partition("-")[::2] for name, row in first_rows(found).items() if not row.is_reason()}
    held = set(versions.replace("(", " ").replace(")", " ").replace(",", " ").split())
    return [f"{name}: its sentence is of {text} {version}, which the rules do not hold to" for name, (text, version) in listed.items() if not {text, version} <= held]


def orphans(rules, found):
    """The rows of no rule, a line each."""
    return [f"{name}: a row of sources.rows, and no such rule" for name in dict.fromkeys(row.name for row in found) if name not in rules]
