"""Books of rules in crates/oci_rule_books, their examples in crates/oci_rule_examples, their golden rows and docs/RULES.md, from tools/rules/*.rules.

It writes all files that are not up to date. With --check it prints each file that differs, is missing, or is no longer generated, each
place that stands in no record, each rule without its golden rows, each whose level or version is not that of its sentence in
tools/rules/sources.rows, and each that wants several members by one text. With --rows NAME it prints the skeleton of a rule's golden rows.

A rule is one line of a file of tools/rules, with eight cells between ` | `:

  NAME | LEVEL | SECTION | PLACES | PLATFORMS | TESTS | PEERS | WANTED

  NAME       what stays, also where the words change; lines of one name are one rule
  LEVEL      must: MUST, REQUIRED. should: SHOULD, RECOMMENDED, DEPRECATED. stated: a format, range or list without such a word.
             host: no sentence of the specification asks for it; a manual page, the kernel or every runtime does, or it is a hint
  SECTION    the text with its file and heading; `-` for common practice
  PLACES     ways from the document to the parts, with a blank between them: `.` is the document, a name its member, `*` each item of an
             array, `{}` each member of an object, `(a,b)` one of these names, with slashes between them
  PLATFORMS  linux windows solaris vm zos freebsd, posix for all but windows, `-` for all
  TESTS      what is asked of each part, with ` ; ` between them; a part of another kind passes:
               text GRAMMAR, one_of LIST, none_of LIST, begins TEXT, reserved TEXT LIST (what begins so is listed),
               spdx_identifiers LIST LIST (an expression's licences are in the first, its exceptions in the second), within LOW HIGH,
               at_least LOW, boolean true|false, there NAME, absent NAME, not_null NAME, either NAME.., boolean_member NAME (which the
               records need not list), not_empty, length_at_most N, at_most NAME NAME, versions_in_order NAME NAME,
               sum_at_most NAME NAME N, lists LIST, lists_item NAME TEXT, among NAME NAME, distinct itself|entry_name|(members WAY..),
               apart NAME (no item's path is inside another's, as Windows compares them), as_many WAY MEMBER WAY (the items of the first
               array without those whose MEMBER is true are as many as the items of the second)
               names TEST                  of each name of an object's members
               at WAY TEST                 of the part on this way
               when COND TEST, unless COND TEST
             a condition: has WAY, lacks WAY, is WAY LIST, true WAY, between WAY LOW HIGH, lists WAY LIST, item WAY NAME LIST; new KIND,
             joined KIND, namespace KIND (the document lists such a namespace: a new one, one to join by its path, any; an empty path
             is none). A way has slashes; `.` is the part itself. A LIST is [a b c] or the name of one
  PEERS      what others do: T runtime-tools, S the JSON schemas, V the Go code beside them, R runc, C crun; E: they refuse it
  WANTED     what people read behind the colon: one text for all tests, or one for each of them, with ` ; ` between

Other lines:

  crate NAME                 the crate of the file's books
  list NAME = TEXT..         a list of texts; the remark above it is its description
  grammar NAME = VARIANT     a grammar by its variant in oci_grammars
  versions TEXT              the specifications that the rules hold to, with their versions, which `ciderglen rules` prints
  beside NAME..              members that the specifications have and the records do not; any place below one stands
  set NAME                   a set of rules begins, which stands wherever a line `include PLACE NAME` has it
  book NAME                  a book begins: one constant of the code, of at most some 40 rules
  kind NAME = RECORD BOOK..  the books of a kind of documents

tools/rules/left_out.rows lists the rules that are left out, with the reason; tools/rules/sources.rows has the sentence that each rule is from,
which `tools/peers sources` looks up; tools/rules/rows has the golden rows. tools/rules/agreements.rows lists what documents agree on, which
are calls of crates/oci_agreement and no rules of books.
"""
import os

from generator import output
from generator.records import Book
from generator.text import marked
from repository import TOP
from rule_books import agreements, examples, kinds, pages, rows, shapes, source, sources, specs
from rule_books.model import Model

RECORDS_BY_HAND = {"Reference": {"registry": "T", "mirror_registry": "T", "repository": "T", "tag": "T", "digest": "T"}}


def misplaced(model):
    """What of the books stands in no record."""
    books = Book.of_folder(os.path.join(TOP, "tools/records"))
    shapes.BESIDE.update(model.beside)
    records = shapes.of_books(books) | RECORDS_BY_HAND
    out = []
    for kind, (shape, _) in model.kinds.items():
        for book in model.books_of(kind):
            for line in book.lines(model.groups):
                out += [f"{kind}: {line.description.name}: {it}" for it in shapes.faults(line, shape, records)]
    return out


def vague(model):
    """The rules that want several members by one text, so that the missing one is not named, a line each."""
    for it in (each for found in model.rules().values() for each in found):
        members = {}
        for line in it.lines:
            if line.test[0] == "there":
                members.setdefault(line.wanted, set()).add(line.test[1])
        yield from (f"{it.name}: one text for {', '.join(sorted(names))}" for names in members.values() if len(names) > 1)


def options_of(parser):
    parser.add_argument("--rows", metavar="NAME", help="print the skeleton of a rule's golden rows")


def run(options):
    model = Model(os.path.join(TOP, "tools/rules"))
    if options.rows:
        print(rows.skeleton(model, options.rows))
        return 0
    found = sources.rows(TOP)
    rules = model.rules() | agreements.rules(TOP)
    wrong = misplaced(model) + list(sources.differing(rules, found)) + sources.orphans(rules, found) + agreements.differing(TOP)
    wrong += [*sources.of_other_versions(model.versions, found), *vague(model)]
    files = {}
    for path, text in (specs.files(model) | source.files(model) | kinds.files(model) | examples.files(model, rows.all_rows(TOP), sources.first_rows(found))).items():
        files |= marked({path: text}, "rules", "tools/rules")
    for folder in sorted({os.path.dirname(path) for path in files if path.endswith(".antt") and path.split("/")[-2] in ("specs", "proofs")}):
        files[f"{folder}/Lib.antt"] = output.module_list(TOP, folder, files)
    status = output.run("rules", TOP, files, options.check)
    status |= pages.run(TOP, model, options.check) | rows.run(TOP, model, options.check)
    for it in wrong:
        print(it)
    return 1 if wrong else status
