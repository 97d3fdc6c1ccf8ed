"""The pages written by hand: that what they name and link to is there.

It writes nothing, with --check or without. On README.md, docs/*.md and the other pages it looks at each crate, path of a file, command of
tools/ and Rust call (`crate::name`, `Type::call`) between backticks, at the clauses in tables of calls and clauses, and at each relative
link with its heading; and whether crates/README.md names every crate. It prints `FILE:LINE: NAME: what is wrong`; the status is 1 if there
is any.

A line of tools/data/pages.exceptions is `PAGE | TEXT | reason`: TEXT may stand on this page, though there is no such thing here.
"""
import fnmatch
import functools
import glob
import os
import re

from pages import names
from repository import TOP, at, crates, read, rows

PAGES = ("*.md", "docs/*.md", "*/README.md", "bindings/*/README.md")
# pages that are generated: of them the links and the commands are looked at alone
GENERATED = ("docs/API.md", "docs/COVERAGE.md", "docs/RULES.md", "docs/SCHEMA.md")
# the page that names every crate
LIST_OF_CRATES = "crates/README.md"
# files of the original crate, and the page that also speaks of what it has
OF_THE_ORIGINAL, DIFFERENCES = r"\b(?:image|distribution|runtime)/\w+\.rs$", "docs/DIFFERENCES.md"
EXCEPTIONS, UPSTREAM = "tools/data/pages.exceptions", "tools/data/upstream.names"
SUFFIXES = r"\.(?:rt|antt|py|md|rows|records|names|rules|edit|values|session)$"
COMMANDS = {"gen", "peers", "measure"}
# the titles of the columns of a table with calls and their clauses
CALLS, CLAUSES = ("call", "where"), ("clause", "clauses")


def pages():
    return sorted({os.path.relpath(path, TOP) for pattern in PAGES for path in glob.glob(f"{TOP}/{pattern}")})


def slug(heading):
    """The anchor of a heading."""
    return re.sub(r"[^\w -]", "", heading.strip().lower()).replace(" ", "-")


@functools.lru_cache(None)
def anchors(page):
    return {slug(it) for it in re.findall(r"(?m)^#+ (.*)$", read(page))}


def links(page, line):
    """The links of a line that lead nowhere."""
    for target in re.findall(r"\]\(([^)\s]+)\)", line):
        path, _, anchor = target.partition("#")
        to = os.path.normpath(os.path.join(os.path.dirname(page), path)) if path else page
        if re.match(r"\w+:", target):
            continue
        if to not in names.files() and to != ".":
            yield target, "no such file"
        elif anchor and to.endswith(".md") and anchor not in anchors(to):
            yield target, "no such heading"


def used_commands(line):
    """The commands of tools/ in a line, also outside backticks, that are not there."""
    for name, part in re.findall(r"(?<![\w/])tools/(\w+)\b(?!\.\w)(?: +([a-z_]+)\b)?", line):
        if f"tools/{name}" not in names.files():
            yield f"tools/{name}", "no such command"
        elif name in COMMANDS and part and not os.path.exists(at(f"tools/commands/{name}/{part}.py")):
            yield f"tools/{name} {part}", "the command has no such part"


def named_crates(span):
    for name, star in re.findall(r"(?<![\w/.-])(oci_\w+)(\*?)", span):
        if name not in crates() and not (star and any(it.startswith(name) for it in crates())) and name not in names.all_words():
            yield name, "no such crate"


def paths(span):
    """The paths of files in a span."""
    path = span.strip("/").removesuffix("/..")
    if re.search(r"[^\w./*-]", path) or path.startswith(".") or re.search(OF_THE_ORIGINAL, path):
        return
    known = "/" in path and names.has_file(path.split("/")[0])
    if (known or "/" not in path and re.search(SUFFIXES, path)) and not path.startswith("tools/") and not names.has_file(path):
        yield span, "no such file"


def calls(span):
    """The calls of a span that are not declared."""
    for whole in re.findall(r"(?<![\w:])(?:\w+::)+\w+", span):
        first, (owner, name) = whole.split("::")[0], whole.split("::")[-2:]
        if first in crates():
            if name not in names.public_names(first) and not names.has_member(owner, name):
                yield whole, f"{first} has no such public item"
        elif owner in names.blocks():
            if not names.has_member(owner, name):
                yield whole, f"{owner} has no such member"
        elif first in names.kit():
            continue
        elif owner[0].isupper() and not owner.isupper():
            if owner not in names.all_words():
                yield whole, f"no such type: {owner}"
        elif owner in names.all_public() and name not in names.all_public():
            yield whole, f"no module {owner} has such a public item"


def named_calls(cell):
    """The calls of a table's cell that no crate has, or not the crate that the cell says."""
    for called, crate in re.findall(r"((?:`\w+`(?:, )?)+) in `(\w+)`", cell):
        for name in re.findall(r"\w+", called) if crate in crates() else ():
            if name not in names.public_names(crate):
                yield name, f"{crate} has no such public item"
    for name in re.findall(r"`([a-z_]\w*)(?:\(\))?`", cell):
        if name not in names.all_public() and name not in crates():
            yield name, "no such public call"


def clauses(call, clause):
    """The clauses of a table's cell that the calls of the cell beside it do not have."""
    known = set().union(*(names.clauses().get(it, set()) for it in re.findall(r"\w+", call)))
    for name in re.findall(r"`(\w+)`", clause) if "`" in call else ():
        if name not in known:
            yield name, "no clause of the calls beside it"


def of_rows(table):
    """What is wrong in a table with a column of calls and one of clauses, by lines; an empty call is that of the row above."""
    head, call = table[0][1], ""
    at_call, at_clause = (next((at for at, it in enumerate(head) if it in titles), None) for titles in (CALLS, CLAUSES))
    for number, cells in table[2:] if None not in (at_call, at_clause) else ():
        if len(cells) == len(head):
            call = cells[at_call] or call
            yield from ((number, *it) for it in dict.fromkeys([*named_calls(cells[at_call]), *clauses(call, cells[at_clause])]))


def cells_of(line):
    return [it.strip() for it in line.strip().strip("|").split("|")] if line.startswith("|") else []


def faults(page):
    """What a page names that is not there: the line, what it names, and what is wrong."""
    table, fenced, by_hand = [], False, page not in GENERATED
    for number, line in enumerate([*read(page).split("\n"), ""], 1):
        fenced ^= line.startswith("```")
        found = [*used_commands(line), *([] if fenced else links(page, line))]
        for span in re.findall(r"`([^`]+)`", line) if by_hand and not fenced else ():
            found += [*named_crates(span), *paths(span), *calls(span)]
        yield from ((number, *it) for it in dict.fromkeys(found))
        if cells_of(line):
            table.append((number, cells_of(line)))
        elif table:
            yield from of_rows(table) if by_hand else ()
            table = []
    if page == LIST_OF_CRATES:
        yield from ((1, it, "the page does not name this crate") for it in crates() if f"`{it}`" not in read(page))


def exceptions():
    """The exceptions, as pairs of patterns of a page and a text."""
    return [tuple(it.strip() for it in line.split(" | ")[:2]) for line in rows(EXCEPTIONS)]


def run(options):
    known, used, count = exceptions(), set(), 0
    original = {it.split(" ", 2)[2] for it in rows(UPSTREAM)}
    for page in pages():
        for number, name, wrong in faults(page):
            excused = {it for it in known if fnmatch.fnmatchcase(page, it[0]) and fnmatch.fnmatchcase(name, it[1])}
            used |= excused
            if not excused and not (page == DIFFERENCES and name in original):
                print(f"{page}:{number}: {name}: {wrong}")
                count += 1
    for it in known:
        if it not in used:
            print(f"{EXCEPTIONS}: {' | '.join(it)}: excuses nothing")
            count += 1
    return 1 if count else 0
