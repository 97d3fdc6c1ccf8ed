"""What the tools that try something said last: the page docs/RESULTS.md.

It runs the tools that are named, or all, one after the other, and keeps of each in out/results what it printed, with the commit, the minutes
and the status. Then it writes the page whole, from all that is kept there: a row a run, with its last line, and behind them the tables that
runs printed. With --kept it runs nothing. The status is 1 where a run that is kept failed.
"""
import json
import os
import shlex
import subprocess
import time

from repository import TOP, at, write

CHECKS = False
PAGE, KEPT = "docs/RESULTS.md", "out/results"
RUNS = {
    "ci": "tools/measure gate",
    "mutants": "tools/mutants --together",
    "tables": "tools/mutants --tables --count 100 --seed 1",
    "sessions": "tools/sessions",
    "bindings": "tools/test_bindings",
    "alloc_failures": "tools/alloc_failures calls string-calls",
    "fuzz": "tools/fuzz --cases 100000 --seed 1",
    "lanes": "tools/fuzz --lanes --cases 1000000 --seed 1",
    "coverage": "tools/fuzz --coverage --minutes 60 --seed 1",
    "rules": "tools/peers rules",
    "layouts": "tools/peers layouts --markdown",
}
HEAD = """# Results

What the last run of each tool said, on the code of the commit beside it. Written by `tools/measure results`, which replaces this page whole;
[TESTING.md](TESTING.md) says what each tool tries, [BENCHMARKS.md](BENCHMARKS.md) has the measurements of speed.

| command | commit | minutes | status | its last line |
|---|---|---|---|---|
"""


def options_of(parser):
    parser.add_argument("--kept", action="store_true", help="run nothing: write the page from what earlier runs left")
    parser.add_argument("names", nargs="*", metavar="NAME", choices=[*RUNS, []], help=f"the runs: {', '.join(RUNS)}; all where none is named")


def commit():
    """The commit of the checkout, with a plus where files differ from it."""
    words = ["git", "describe", "--always", "--abbrev=8", "--dirty=+"]
    return subprocess.run(words, cwd=TOP, stdout=subprocess.PIPE, text=True, check=True).stdout.strip()


def run_and_keep(name):
    begun, at_commit = time.time(), commit()
    print(RUNS[name], flush=True)
    how = {"cwd": TOP, "stdin": subprocess.DEVNULL, "stdout": subprocess.PIPE, "stderr": subprocess.STDOUT}
    done = subprocess.run(shlex.split(RUNS[name]), check=False, **how)
    text = done.stdout.decode(errors="backslashreplace")
    kept = {"commit": at_commit, "minutes": round((time.time() - begun) / 60, 1), "status": done.returncode, "text": text}
    write(f"{KEPT}/{name}.json", json.dumps(kept))


def kept_runs():
    """What is kept of each run, by its name."""
    found = {}
    for name in RUNS:
        if os.path.exists(at(f"{KEPT}/{name}.json")):
            with open(at(f"{KEPT}/{name}.json"), encoding="utf-8") as file:
                found[name] = json.load(file)
    return found


def row(name, kept):
    lines = [line for line in kept["text"].split("\n") if line.strip()]
    last = lines[-1].replace("|", "\\|") if lines else ""
    return f"| `{RUNS[name]}` | {kept['commit']} | {kept['minutes']} | {kept['status']} | {last} |\n"


def table(name, kept):
    """The section with the last table that a run printed, if it printed one."""
    blocks = [block for block in kept["text"].split("\n\n") if block.strip().startswith("|")]
    return f"\n## `{RUNS[name]}`\n\n{blocks[-1].strip()}\n" if blocks else ""


def run(options):
    for name in [] if options.kept else options.names or RUNS:
        run_and_keep(name)
    kept = kept_runs()
    write(PAGE, HEAD + "".join(row(*it) for it in kept.items()) + "".join(table(*it) for it in kept.items()))
    return int(any(it["status"] for it in kept.values()))
