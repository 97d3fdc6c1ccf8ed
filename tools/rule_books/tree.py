"""Places, conditions and tests of rules as trees, which code and specs print alike.

A tree is a Call of a word of the machinery with its arguments: strings, integers, booleans, tuples of strings (a list, by its name where it has
one), and Natural, Words, Listing or Call. A Printer has what is written for each of them.
"""
from collections import namedtuple

# a word: in code a variant of the enum `type`, or a struct with fields, where it has names of them
Call = namedtuple("Call", "type code spec arguments fields", defaults=((), ()))
# a natural number; a plain integer is one of either sign
Natural = namedtuple("Natural", "value")
# words that are joined by spaces
Words = namedtuple("Words", "items")
# a list that is written out
Listing = namedtuple("Listing", "items")

ORIGINS = {"part": Call("Origin", "Part", "the_part"), "document": Call("Origin", "Document", "the_document")}
CHECKS = {"there": ("There", "is_there"), "one_of": ("OneOf", "is_text"), "boolean": ("Boolean", "is_truth"), "within": ("Within", "is_within"),
          "lists": ("Lists", "has_text"), "lists_item": ("ListsItem", "has_item")}
STEPS = {"member": ("Member", "under"), "item": ("EachItem", "each_item"), "each": ("EachMember", "each_member"), "name": ("EachName", "each_name")}
KEYS = {"itself": ("Itself", "itself"), "members": ("Members", "members"), "entry_name": ("EntryName", "entry_name")}
# the tests whose lists are words of one text
JOINED = ("spdx_identifiers",)
# the words of tests whose names differ in specs
TESTS = {"boolean": "truth"}


def pascal(word):
    return "".join(it.capitalize() for it in word.replace("-", "_").split("_"))


def step(it):
    word, *rest = it
    if word != "when":
        return Call("Step", *STEPS[word], tuple(rest))
    origin, way, holds, (check, *arguments) = rest
    asked = (ORIGINS[origin], Listing(way), holds, Call("Predicate", *CHECKS[check], tuple(arguments)))
    return Call("Step", "When", "if_so", (Call("Condition", "Condition", "asks", asked, ("origin", "way", "holds", "check")),))


def key(it):
    word, *rest = it
    return Call("Key", *KEYS[word], tuple(Listing(tuple(Listing(way) for way in ways)) for ways in rest))


def argument(word, number, it):
    """An argument of a test, by its number."""
    if word == "text":
        return Call("Grammar", it, it)
    if word == "distinct":
        return key(it)
    if word in JOINED:
        return Words(it)
    if word == "either" or (word == "as_many" and number != 1):
        return Listing(it)
    if word == "length_at_most" or (word == "sum_at_most" and number == 2):
        return Natural(it)
    return it


def test(it):
    word, *rest = it
    return Call("Test", pascal(word), TESTS.get(word, word), tuple(argument(word, number, each) for number, each in enumerate(rest)))


class Printer:
    """What is written for a tree. `names` has the names of lists by their strings."""

    def __init__(self, names):
        self.names = names

    def shown(self, it):
        if isinstance(it, bool):
            return "true" if it else "false"
        if isinstance(it, int):
            return self.integer(it)
        if isinstance(it, str):
            return self.text(it)
        if isinstance(it, Natural):
            return str(it.value)
        if isinstance(it, Words):
            return self.list_name(self.names[it.items]) if it.items in self.names else self.text(" ".join(it.items))
        if isinstance(it, Listing):
            return self.listing([self.shown(each) for each in it.items])
        if isinstance(it, Call):
            return self.call(it, [self.shown(each) for each in it.arguments])
        return self.list_name(self.names[it]) if it in self.names else self.listing([self.shown(each) for each in it])
