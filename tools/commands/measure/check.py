"""Where the time of a crate's last check went: the modules of the proof that took longest.

`rt check` keeps each module that it checked as a file below crates/CRATE/out/incremental, written when the module was done. So with
one job (`rt check --jobs 1`) the time between two files is what the later one took, with what had to be read for it. Of a run only
the modules are seen that it checked anew; a run begins where no file was written for half a minute. To see all, remove
crates/CRATE/out/incremental first, here and in each other copy of the repository, since rt begins with what a copy kept.

What a module's last word says: Lts is the part of the borrow checker, which grows by the number of locals that live at once and by
the exits; Tie is what joins it to the code; Proof is where goals with no answer of their own are searched for, in a cycle those of
all its functions; Answers are the answers in proofs/. The sums of these come first.
"""
import os
import re
import sys

from repository import folder_of

CHECKS = False
SECONDS_BETWEEN_RUNS = 30
KINDS = ("Lts", "Tie", "Proof", "Answers", "Goals", "Code", "contracts")


def files_below(folder):
    """The files, the oldest first: the time of each, and its name without the folder and what rattle puts around it."""
    found = []
    for at, _, names in os.walk(folder):
        for name in names:
            if name.endswith(".oantt"):
                module = re.sub(r"^Rattle-|(\.decls)?\.oantt$", "", name)
                found.append((os.stat(f"{at}/{name}").st_mtime, module))
    return sorted(found)


def last_run(files):
    """The modules of the last run, with the seconds of each."""
    begins = max((n for n in range(1, len(files)) if files[n][0] - files[n - 1][0] > SECONDS_BETWEEN_RUNS), default=0)
    return [(files[n][0] - files[n - 1][0], files[n][1]) for n in range(begins + 1, len(files))]


def kind_of(module):
    return next((kind for kind in KINDS if re.search(rf"\.{kind}\b", module)), "other")


def options_of(parser):
    parser.add_argument("crate", metavar="CRATE")
    parser.add_argument("many", metavar="HOW_MANY", type=int, nargs="?", default=25)


def run(options):
    times = last_run(files_below(f"{folder_of(options.crate)}/out/incremental"))
    if not times:
        sys.exit(f"{options.crate} has no check that was kept: run rt check --jobs 1 in its folder")
    sums = {}
    for seconds, module in times:
        sums[kind_of(module)] = sums.get(kind_of(module), 0) + seconds
    kinds = ", ".join(f"{kind} {sums[kind]:.1f}" for kind in sorted(sums, key=sums.get, reverse=True))
    print(f"{len(times)} modules, {sum(sums.values()):.1f} seconds: {kinds}")
    for seconds, module in sorted(times, reverse=True)[:options.many]:
        print(f"{seconds:7.2f}  {module}")
    return 0
