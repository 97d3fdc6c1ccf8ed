"""Real documents: what image tools and runtimes write."""
import collections
import os
import statistics
import tempfile

from benchmarks.measuring import OUT, Missing, said, seconds
from benchmarks.tables import laid_out, number, ratio
from comparisons import written

WANTED = 30
SMALL = 500
PEERS = ("T", "Ts", "Go")
Document = collections.namedtuple("Document", "name kind text")


def documents():
    """What the tools write now, without repetitions: lists, one for each tool and kind."""
    said("writing real documents")
    os.makedirs(OUT, exist_ok=True)
    try:
        with tempfile.TemporaryDirectory(dir=OUT) as room:
            found = written.documents(f"{room}/written")
    except (SystemExit, OSError) as fault:
        raise Missing(f"documents of umoci, skopeo, buildah, runc and crun: {fault}") from fault
    lists, known = collections.defaultdict(list), set()
    for tool, kind, text in found:
        if text not in known:
            known.add(text)
            lists[tool, kind].append(Document(f"{tool} {kind} {len(lists[tool, kind]) + 1}", kind, text.encode()))
    return list(lists.values())


def spread(lists):
    """Thirty documents, as evenly from each list as there are."""
    longest = max(map(len, lists), default=0)
    return [them[at] for at in range(longest) for them in lists if at < len(them)][:WANTED]


def accepted(command):
    """The command, if its program accepts the document."""
    try:
        return command if command and seconds(command(1)) >= 0 else None
    except Missing:
        return None


def ratios_of(bench, document):
    """The ratio of our time to that of each peer which accepts the document, too."""
    path = bench.inputs.text("real.json", document.text.decode())
    commands = {way: accepted(bench.programs.way(way, document.kind, path)) for way in ("bytes", *PEERS)}
    if not commands["bytes"]:
        said(f"rejected, and left out: {document.name}")
        return {}
    times = bench.times(f"times of {document.name}", commands)
    return {peer: times["bytes"] / times[peer] for peer in PEERS if peer in times}


def row(title, chosen, ratios):
    """A row: of the crate the median and the worst, of the others the median."""
    found = {peer: [ratios[it.name][peer] for it in chosen if peer in ratios[it.name]] for peer in PEERS}
    medians = [ratio(statistics.median(them), 1) if them else "" for them in found.values()]
    worst = max((it for it in chosen if "T" in ratios[it.name]), key=lambda it: ratios[it.name]["T"], default=None)
    told = ["", ""] if worst is None else [ratio(max(found["T"]), 1), f"{worst.name}, {len(worst.text):,} bytes"]
    return [title, number(len(chosen)), medians[0], *told, *medians[1:]]


def times(bench):
    """The ratios of thirty documents of all kinds, and of thirty under 500 bytes."""
    bench.programs.built("oci_tests")
    lists = documents()
    small = [[it for it in them if len(it.text) < SMALL] for them in lists]
    chosen = {"of all kinds": spread(lists), f"under {SMALL} bytes": spread(small)}
    ratios = {it.name: ratios_of(bench, it) for it in {it: None for them in chosen.values() for it in them}}
    columns = ["documents", "number", "T, median", "T, worst", "the worst", "Ts, median", "Go, median"]
    return laid_out(columns, [row(title, them, ratios) for title, them in chosen.items()])
