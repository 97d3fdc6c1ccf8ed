"""Commands: what the command line program takes for a document, beside the library's call."""
import os

from benchmarks.measuring import collected, said
from benchmarks.tables import laid_out, number, ratio

COMMANDS = ("fmt", "fmt -q", "check", "check --rules")
DOCUMENTS = ("index_1000", "index_unknown")
EMPTY = "index_0"


def processes(bench, name):
    """Instructions of a whole process of each command on a document."""
    said(f"instructions of commands on {name}")
    return [collected([bench.programs.built("ciderglen"), *it.split(), bench.inputs.document(name)]) for it in COMMANDS]


def instructions(bench):
    """Instructions of the library's call, and the ratio of each command to it, less the same command on an index of no manifests."""
    paths = [bench.inputs.document(name) for name in DOCUMENTS]
    sizes = [os.path.getsize(path) for path in paths]
    works = [(bench.programs.way("bytes", "index", path), size) for path, size in zip(paths, sizes)]
    calls, empty, rows = bench.counts("instructions of the library's call", works), processes(bench, EMPTY), []
    for name, size, call in zip(DOCUMENTS, sizes, calls):
        ratios = [ratio(whole - fixed, call) for whole, fixed in zip(processes(bench, name), empty)]
        rows.append([f"`{name}`", number(size), number(call), *ratios])
    return laid_out(["input", "bytes", "`normalize_bytes`", *(f"`{it}`" for it in COMMANDS)], rows)
