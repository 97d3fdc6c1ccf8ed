"""Growth: what a byte costs in small and large documents, and the memory that a large one takes."""
import os

from benchmarks.measuring import peak, said
from benchmarks.tables import laid_out, number

MANIFESTS = (10, 100, 1000, 10_000, 100_000, 470_000)
LARGEST, LARGE = "index_470000", "index_100000"
COUNTED = {"bytes": "from bytes", "value": "by value", "tape": "tape", "T": "T"}
HELD = {"bytes": "from bytes", "value": "by value", "tape": "tape", "T": "T", "Go": "Go"}


def instructions(bench):
    """Instructions for each byte of indexes."""
    names = bench.sizes([f"index_{count}" for count in MANIFESTS])
    paths = [bench.inputs.document(name) for name in names]
    sizes = [os.path.getsize(path) for path in paths]
    works = [(bench.programs.way(way, "index", path), size) for path, size in zip(paths, sizes) for way in COUNTED]
    found = iter(bench.counts("instructions of indexes", works))
    rows = []
    for name, size in zip(names, sizes):
        costs = [next(found) for _ in COUNTED]
        rows.append([f"{int(name.removeprefix('index_')):,}", number(size), *(number(cost and cost / size, 1) for cost in costs)])
    return laid_out(["manifests", "bytes", *COUNTED.values()], rows)


def memory(bench):
    """Bytes of memory at the peak for each byte of the largest index."""
    path = bench.inputs.document(LARGE if bench.quick else LARGEST)
    size, row = os.path.getsize(path), []
    for way in HELD:
        said(f"memory, {HELD[way]}")
        command = bench.programs.way(way, "index", path)
        row.append(number(command and peak(command(1)) / size, 1))
    return laid_out(["bytes", *HELD.values()], [[number(size), *row]])
