"""The program of the golden and robustness tests: where its data is, and what it prints of each of its parts."""
import re

import repository

NAME = "oci_tests"
CRATE = repository.folder_of(NAME)
DATA = f"{CRATE}/data"
STDOUT = f"{CRATE}/stdout"


def part_of(text, part):
    """The beginning and the end of what stands of a part in the text of `stdout`."""
    found = re.search(rf"(?m)^== {re.escape(part)}\n((?:(?!== ).*\n)*)", text)
    if not found:
        raise SystemExit(f"{STDOUT}: no line == {part}")
    return found.span(1)


def read():
    return repository.read(STDOUT)


def expected(part):
    """What the program prints of a part."""
    text = read()
    begin, end = part_of(text, part)
    return text[begin:end]


def with_part(text, part, printed):
    """The text of `stdout`, with what is printed of a part replaced."""
    begin, end = part_of(text, part)
    return text[:begin] + printed + text[end:]
