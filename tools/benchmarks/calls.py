"""Calls: references, calls from other languages, and whole processes."""
from benchmarks.inputs import CALLED, texts
from benchmarks.measuring import Missing, seconds
from benchmarks.tables import laid_out, number, ratio

CALLS = ("manifest", "spec", "reference", "digest")
# what calls: a title, a program, what is put behind the name of a call, the calls that it has, and words behind the count
ROWS = [
    ("C", "c", "", (*CALLS, "none")),
    ("Rust", "rust", "", CALLS),
    ("Go", "go", "", CALLS),
    ("Rattle, a workspace a call", "oci_tests", "", ("manifest", "spec"), "fresh"),
    ("Rattle", "oci_tests", "", ("manifest", "spec"), "bytes"),
    ("the crate `oci-spec`", "crate", "", CALLS),
    ("the same in byte order", "crate", "_ordered", ("manifest", "spec")),
    ("Go, `encoding/json`", "go_peers", "", ("manifest", "spec")),
    ("Go, `go-digest`", "go", "_go", ("digest",)),
]
TEXT_CALLS = ("from_str", "parts", "scanner")
# what stands before the name of a call
BEFORE = {"oci_tests": ("bench",)}


def with_words(program, *before, after=()):
    """The command of a program that takes the count behind some words; None if there is no program."""
    return program and (lambda count: [program, *before, str(count), *after])


def references(bench):
    """References by length: nanoseconds beside the peers, and instructions."""
    program = bench.programs.built("oci_tests")
    rows = []
    for text in texts():
        path = bench.inputs.text("text", text)
        ours = {call: with_words(program, "bench", "texts", path, after=(call,)) for call in TEXT_CALLS}
        crate = with_words(bench.programs.crate, "from_str", path)
        go = with_words(bench.programs.go_peers, "reference", path)
        title = f"reference of {len(text)} bytes"
        times = bench.times(f"times of a {title}", {"ours": ours["from_str"], "T": crate, "Go": go})
        counts = bench.counts(f"instructions of a {title}", [(command, len(text)) for command in (*ours.values(), crate)])
        ratios = [ratio(times["ours"], times.get(peer)) for peer in ("T", "Go")]
        rows.append([str(len(text)), number(times["ours"]), *ratios, *map(number, counts)])
    return laid_out(["bytes", "`from_str`, ns", "T", "Go", *(f"`{call}`, instructions" for call in TEXT_CALLS), "T, instructions"], rows)


def found_programs(bench):
    """The programs of the calls that are there."""
    found = bench.programs.bindings()
    found |= {"crate": bench.programs.crate, "go_peers": bench.programs.go_peers}
    try:
        found["oci_tests"] = bench.programs.built("oci_tests")
    except Missing:
        pass
    return {name: program for name, program in found.items() if program}


def call_path(bench, call):
    """The file of what is called with."""
    return bench.inputs.text(call, CALLED[call]) if call in CALLED else bench.inputs.document(call)


def bindings(bench):
    """Calls from C, Rust and Go: instructions and nanoseconds."""
    found, rows = found_programs(bench), []
    for call in (*CALLS, "none"):
        path = call_path(bench, call)
        mine = [it for it in ROWS if call in it[3] and it[1] in found]
        commands = {title: with_words(found[program], *BEFORE.get(program, ()), call + ending, path, after=words) for title, program, ending, _, *words in mine}
        times = bench.times(f"times of the call {call}", commands)
        works = [(None if program.startswith("go") else commands[title], 0) for title, program, *_ in mine]
        counts = bench.counts(f"instructions of the call {call}", works)
        rows += [[call, title, number(count), number(times[title])] for (title, *_), count in zip(mine, counts)]
    return laid_out(["call", "from", "instructions", "ns"], rows)


def processes(bench):
    """Whole processes on the manifest: milliseconds."""
    path = bench.inputs.document("manifest")
    programs = bench.programs
    words = {"`ciderglen fmt FILE`": [programs.built("ciderglen"), "fmt", path],
             "`ocidoc norm manifest < FILE`": [programs.built("oci_doc"), "norm", "manifest"],
             "a program over the crate `oci-spec`": programs.crate and [programs.crate, "manifest", path, "print"],
             "`jq -cS . FILE`": programs.jq and [programs.jq, "-cS", ".", path]}
    found = {title: float("inf") for title, it in words.items() if it}
    for _ in range(20 if bench.quick else 200):
        for title in found:
            found[title] = min(found[title], seconds(words[title], path))
    return laid_out(["process", "ms"], [[title, f"{cost * 1000:.2f}"] for title, cost in found.items()])
