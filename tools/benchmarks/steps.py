"""Steps: instructions of reading and of writing a document, beside the JSON reader and writer that they use."""
import os

from benchmarks.calls import with_words
from benchmarks.tables import laid_out, number, ratio

# the inputs, and the kind of each
DOCUMENTS = {
    "manifest": "manifest",
    "manifest_1000": "manifest",
    "index_1000": "index",
    "config": "config",
    "artifact": "artifact",
    "layout": "layout",
    "descriptor": "descriptor",
    "error": "error",
    "repositories": "repositories",
    "tags": "tags",
    "reference": "reference",
    "spec_small": "spec",
    "spec": "spec",
    "spec_seccomp": "spec",
    "features": "features",
}
CALLS = ("floor", "from_slice", "to_value", "normalize")


def instructions(bench):
    """Instructions of the floor, and each other call's ratio to it."""
    program = bench.programs.built("oci_tests")
    paths = {name: bench.inputs.document(name) for name in DOCUMENTS}
    works = [(with_words(program, "bench", kind, paths[name], after=(call,)), os.path.getsize(paths[name]))
             for name, kind in DOCUMENTS.items() for call in CALLS]
    found = iter(bench.counts("instructions of the steps", works))
    rows = []
    for name, path in paths.items():
        floor, *others = (next(found) for _ in CALLS)
        rows.append([f"`{name}`", number(os.path.getsize(path)), number(floor), *(ratio(cost, floor) for cost in others)])
    return laid_out(["input", "bytes", *(f"`{call}`" for call in CALLS)], rows)
