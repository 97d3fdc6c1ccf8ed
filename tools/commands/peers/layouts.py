"""Image layouts, good and faulty, and what `ciderglen verify` and other tools say of them.

Makes layouts with umoci, skopeo and buildah (packages of Debian), and faulty ones from those, runs `ciderglen verify` on each, and
`skopeo copy`, `skopeo inspect`, `umoci stat` and `umoci raw unpack` beside it, and prints a table. A row says what should be found:
the rules of errors, and behind a `+` those of warnings and notes. It ends with status 1 where ours says anything else; what the others say is
printed alone. The program is crates/ciderglen/out/ciderglen if none is named: `rt run` makes it.
"""
import json
import os
import shutil
import subprocess
import sys
import tempfile

from comparisons.layouts import ROWS, tool
from repository import program_of

CHECKS = False
HEAD = ["layout", "skopeo copy", "skopeo inspect", "umoci stat", "umoci unpack", "ours", "should be"]


def ours(program, root):
    """What ours finds: the rules of errors, a plus and those of warnings and notes; the same by the lines, by the log and by the status."""
    def run(*options):
        return subprocess.run([program, "verify", *options, root], capture_output=True, text=True, errors="replace", timeout=120)

    as_json = run("--format", "json")
    if as_json.returncode == 3:
        return "status 3"
    *listed, last = [json.loads(line) for line in as_json.stdout.splitlines()]
    errors = sorted(it["rule"] for it in listed if it["level"] == "error")
    notes = sorted(it["rule"] for it in listed if it["level"] != "error")
    plain, strict, log = run(), run("--strict"), run("--format", "sarif")
    if (plain.returncode, log.returncode, strict.returncode) != (1 if errors else 0, 1 if errors else 0, 1 if listed else 0):
        return "status and JSON differ"
    if len(plain.stdout.splitlines()) != len(listed) or (last["summary"]["findings"], last["summary"]["notes"]) != (len(errors), len(notes)):
        return "lines, totals and JSON differ"
    results = json.loads(log.stdout)["runs"][0]["results"]
    if [(it["ruleId"], it["level"]) for it in results] != [(it["rule"], it["level"]) for it in listed]:
        return "SARIF and JSON differ"
    return " ".join(errors + (["+"] + notes if notes else []))


def others(name, root):
    """What other tools say of a layout."""
    if "FIFO" in name:
        return ["waits"] * 4
    said = [
        tool("skopeo", "copy", f"oci:{root}:t", f"dir:{root}.copy"),
        tool("skopeo", "inspect", f"oci:{root}:t"),
        tool("umoci", "stat", "--image", f"{root}:t"),
        tool("umoci", "raw", "unpack", "--rootless", "--image", f"{root}:t", f"{root}.rootfs"),
    ]
    return ["ok" if it else "refused" for it in said]


def compared(program, place):
    """The rows of the table, and how many layouts are otherwise than they should be, or could not be made."""
    rows, wrong = [], 0
    for number, (name, wanted, make) in enumerate(ROWS):
        root = f"{place}/{number}"
        if make(root) is False:
            print(f"{name}: cannot be made here", file=sys.stderr)
            wrong += 1
            continue
        found = ours(program, root)
        wrong += found != wanted
        rows.append([name, *others(name, root), found or "ok", wanted or "ok"])
    return rows, wrong


def print_table(rows, markdown):
    if markdown:
        print("| " + " | ".join(HEAD) + " |\n|" + "---|" * len(HEAD))
        print("".join(f"| {' | '.join(cells)} |\n" for cells in rows), end="")
        return
    wide = [max(len(row[at]) for row in [HEAD, *rows]) for at in range(len(HEAD))]
    for cells in [HEAD, *rows]:
        print("  ".join(cell.ljust(width) for cell, width in zip(cells, wide)).rstrip())


def options_of(parser):
    parser.add_argument("--program", metavar="FILE", default=program_of("ciderglen"))
    parser.add_argument("--keep", metavar="FOLDER", help="make the layouts here, and leave them")
    parser.add_argument("--markdown", action="store_true", help="print a table for docs/RESULTS.md")


def run(options):
    place = options.keep or tempfile.mkdtemp()
    os.makedirs(place, exist_ok=True)
    rows, wrong = compared(os.path.abspath(options.program), place)
    print_table(rows, options.markdown)
    if not options.keep:
        shutil.rmtree(place)
    print(f"{len(rows)} layouts, {wrong} otherwise than they should be")
    return 1 if wrong else 0
