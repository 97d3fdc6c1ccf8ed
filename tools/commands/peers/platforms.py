"""Image indexes and platforms: the manifest that we choose beside the one that containerd chooses.

Makes COUNT random indexes from a seed, each with a wanted platform, and asks containerd's package `platforms`, of Debian, for the manifest of
each. Our program reads them with what containerd chose, and prints each row where it chooses another. The status is 1 if it prints one. With
`--write`, the first 150 become the golden rows of crates/oci_test_select instead. Needs golang-go and golang-github-containerd-containerd-dev.
The program is crates/oci_test_select/out/oci_test_select if none is named: `rt run` makes it.
"""
import os
import subprocess
import sys
import tempfile

from comparisons.go_programs import built_go
from comparisons.platform_rows import random_rows
from repository import at, program_of, write

CHECKS = False
GOLDEN = at("crates/oci_test_select/data/choices.rows")
GOLDEN_ROWS = 150
HEAD = """\
# Wanted platform, platforms that the manifests of an index state (`-` where one states none), and the place of the manifest that containerd
# chooses. Written by `tools/peers platforms --write`, with containerd 1.6.20 of Debian.
"""


def by_containerd(rows, folder):
    """The place that containerd chooses in each row, or None if there is no compiler."""
    program = built_go("platform_choices.go", folder)
    if not program:
        return None
    asked = "".join(" ".join([wanted, *stated]) + "\n" for wanted, stated in rows)
    return subprocess.run([program], input=asked, capture_output=True, text=True, check=True).stdout.split()


def text_of(rows, chosen):
    return "".join(f"{wanted} | {' '.join(stated)} | {place}\n" for (wanted, stated), place in zip(rows, chosen, strict=True))


def options_of(parser):
    parser.add_argument("--program", metavar="FILE", default=program_of("oci_test_select"))
    parser.add_argument("--count", type=int, default=2000)
    parser.add_argument("--seed", type=int, default=1)
    parser.add_argument("--write", action="store_true", help="write the golden rows, and compare nothing")


def run(options):
    rows = random_rows(GOLDEN_ROWS if options.write else options.count, options.seed)
    with tempfile.TemporaryDirectory() as folder:
        chosen = by_containerd(rows, folder)
        if chosen is None:
            print("golang-go is not installed", file=sys.stderr)
            return 2
        text = text_of(rows, chosen)
        if options.write:
            write(GOLDEN, HEAD + text)
            return 0
        with open(os.path.join(folder, "choices.rows"), "w", encoding="utf-8") as file:
            file.write(text)
        done = subprocess.run([os.path.abspath(options.program)], cwd=folder, capture_output=True, text=True, check=True)
    print(done.stdout, end="")
    print(f"{sum(it != 'none' for it in chosen)} of {len(rows)} with a manifest")
    return 0 if done.stdout == f"choices: {len(rows)} rows\n" else 1
