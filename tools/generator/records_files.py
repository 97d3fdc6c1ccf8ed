"""All files of records, by their paths in the repository."""
import os

from generator.accessors import fields_source
from generator.builders import builder_source, refusable
from generator.calls import SHAPES, calls_source
from generator.output import module_list
from generator.proofs import build_answers, copy_answers, read_answers, write_answers
from generator.shapes import shape_spec, well
from generator.source import source
from generator.specs import builder_spec, spec
from generator.text import marked

TOOL = "records"


def files(r):
    """The files of one record, by their paths in its crate."""
    out = {f"src/{r.word}.rt": source(r), f"specs/{r.name}.antt": spec(r)}
    if r.above:
        out[f"../{r.above}/src/{r.word}_builder.rt"] = builder_source(r)
    elif "builder" in r.long:
        out[f"src/{r.word}/builder.rt"] = builder_source(r)
    if "calls" in r.long:
        out[f"src/{r.word}/calls.rt"] = calls_source(r)
    if "fields" in r.long:
        out[f"src/{r.word}/fields.rt"] = fields_source(r)
    if r.required:
        out[f"specs/{r.name}Builder.antt"] = builder_spec(r)
    if len(refusable(r)) > 1 and not r.above and "build" not in r.by_hand:
        home = f"proofs/{r.word}/builder" if "builder" in r.long else f"proofs/{r.word}"
        out[f"{home}/{r.name}Builder/build/Answers.antt"] = build_answers(r)
    answers = f"proofs/{r.word}/{r.name}OciRecord"
    if not r.copy and any(m.copies() for m in r.members):
        out[f"{answers}/duplicate/Answers.antt"] = copy_answers(r)
    out[f"{answers}/from_value_owned/Answers.antt"] = read_answers(r)
    out[f"{answers}/to_value/Answers.antt"] = write_answers(r)
    return {os.path.normpath(f"crates/{r.book.crate}/{path}"): text for path, text in out.items()}


def book_files(book):
    """The files of all records of a book."""
    return marked({path: text for r in book.records for path, text in files(r).items()}, TOOL, book.source())


def spec_lists(books, root, generated):
    """The lists of the specifications of the crates that the books are of."""
    out = {}
    for crate in sorted({it.crate for it in books}):
        specs, sources = f"crates/{crate}/specs", [it.source() for it in books if it.crate == crate]
        source = sources[0] if len(sources) == 1 else "tools/records"
        out.update(marked({f"{specs}/Lib.antt": module_list(root, specs, generated)}, TOOL, source))
    return out


def shape_files(books, root):
    """The shapes of all records, the list of them, and the proofs that each is well formed."""
    specs = f"crates/{SHAPES}/specs"
    out = {}
    for book in books:
        out.update(marked({f"{specs}/{r.name}.antt": shape_spec(r) for r in book.records}, TOOL, book.source()))
    all_of_them = {f"{specs}/Lib.antt": module_list(root, specs, out),
                   f"crates/{SHAPES}/proofs/Well.antt": well(books, os.path.join(root, specs))}
    return out | marked(all_of_them, TOOL, "tools/records")


def all_files(books, root):
    """All files of all books, by their paths in the repository at `root`."""
    out = shape_files(books, root)
    for book in books:
        out.update(book_files(book))
    return out | spec_lists(books, root, out)
