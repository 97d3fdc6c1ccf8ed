"""Documents: what it costs to normalize one, beside the peers and the other ways."""
import os

from benchmarks.tables import laid_out, microseconds, number, ratio

# the inputs, and the kind of each
DOCUMENTS = {
    "spec_small": "spec",
    "manifest": "manifest",
    "manifest_1000": "manifest",
    "index_1000": "index",
    "config_1000": "config",
    "spec": "spec",
    "spec_seccomp": "spec",
    "features": "features",
    "spec_mounts": "spec",
    "tags_100000": "tags",
    "index_100000": "index",
}
PEERS = ("T", "Ts", "V", "Go", "jq", "value", "tape")
COUNTED = ("bytes", "value", "tape", "T", "Ts")
TITLES = {"bytes": "from bytes", "value": "by value"}


def title(way):
    return TITLES.get(way, way)


def times(bench):
    """Microseconds from bytes to bytes, and their ratio to each peer's."""
    rows = []
    for name in bench.sizes(DOCUMENTS):
        path = bench.inputs.document(name)
        found = bench.times(f"times of {name}", {way: bench.programs.way(way, DOCUMENTS[name], path) for way in ("bytes", *PEERS)})
        ours = found["bytes"]
        rows.append([f"`{name}`", number(os.path.getsize(path)), microseconds(ours), *(ratio(ours, found.get(way)) for way in PEERS)])
    return laid_out(["input", "bytes", "µs", *map(title, PEERS)], rows)


def instructions(bench):
    """Instructions of one document, by each way that callgrind can run."""
    names = bench.sizes(DOCUMENTS)
    paths = [bench.inputs.document(name) for name in names]
    sizes = [os.path.getsize(path) for path in paths]
    works = [(bench.programs.way(way, DOCUMENTS[name], path), size) for name, path, size in zip(names, paths, sizes) for way in COUNTED]
    found = iter(bench.counts("instructions of documents", works))
    rows = [[f"`{name}`", number(size), *(number(next(found)) for _ in COUNTED)] for name, size in zip(names, sizes)]
    return laid_out(["input", "bytes", *map(title, COUNTED)], rows)
