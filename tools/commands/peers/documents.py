"""Documents as other projects write them, and what `ciderglen check` says of each.

The documents are those of tests/documents, whose ORIGINS.md has a row for each: its file, its kind, who writes it, where its format is
described, and what is special about it. The kind `-` means that it is no document of OCI, as the configuration of a chart: no kind is to be
found. Each is checked by `check`, which finds out the kind, by `check --rules`, and by `check --unknown warn --rules --level host --format
json`; the last one also with `--kind KIND` of the row, which has to say the same, or another kind was found.

It prints what is said of each document, a line a rule: its level, how often it is broken, and where first. Errors and warnings of `check
--rules` are those of the default level; what else the third run warns of has the level host, or is an unknown member. The last line counts
the documents with errors and with warnings at the default level. The status is 1 if there is such an error without a line `document FILE
RULE REASON` of tools/rules/peers.rows, which says why the document is wrong, or such a line without its error; if another kind was found or
none, if the runs disagree, or if ORIGINS.md and the files do. The program is crates/ciderglen/out/ciderglen if none is named: `rt run`
makes it.
"""
import glob
import json
import os
import subprocess

from repository import at, program_of, read, rows as rows_of

CHECKS = False
FOLDER = "tests/documents"
NO_KIND = "-"
STRICT = ["--unknown", "warn", "--rules", "--level", "host", "--format", "json"]


class Origin:
    """A row of ORIGINS.md."""

    def __init__(self, line):
        cells = [it.strip().replace("`", "") for it in line.strip().strip("|").split(" | ")]
        self.is_whole = len(cells) == 5 and all(cells)
        self.file, self.kind, self.producer = (cells + [""] * 3)[:3]

    def has_kind(self):
        return self.kind != NO_KIND


def origins():
    """The rows of the table, without its head."""
    return [Origin(it) for it in read(f"{FOLDER}/ORIGINS.md").split("\n") if it.startswith("| ")][1:]


def disagreements(rows):
    """What is wrong with the rows beside the files, a line each."""
    files = {os.path.relpath(it, at(FOLDER)) for it in glob.glob(at(f"{FOLDER}/**/*.json"), recursive=True)}
    named = [it.file for it in rows]
    yield from (f"{it.file}: a row has five cells" for it in rows if not it.is_whole)
    yield from (f"{it}: in more than one row" for it in sorted(set(named)) if named.count(it) > 1)
    yield from (f"{it}: no such file" for it in named if it not in files)
    yield from (f"{it}: no row of ORIGINS.md" for it in sorted(files - set(named)))


def known():
    """Why documents are wrong: the reason by the file and the rule."""
    found = [line.split(" ", 3) for line in rows_of("tools/rules/peers.rows") if line.startswith("document ")]
    return {(file, rule): reason for _, file, rule, reason in found}


def has_errors(found):
    return any(it["level"] == "error" for it in found)


def is_of_types(finding):
    """Whether `check` without an option lists it."""
    return "requirement" not in finding and finding["rule"] != "unknown"


def is_of_default(finding):
    """Whether `check --rules` lists it."""
    return finding.get("requirement") != "host" and finding["rule"] != "unknown"


def agrees(done, found):
    """Whether a run that printed lines has as many as were found, and their status."""
    return (done.stderr, len(done.stdout.splitlines()), done.returncode) == ("", len(found), int(has_errors(found)))


class Answer:
    """What the program says of a document."""

    def __init__(self, program, row):
        def run(*options):
            return subprocess.run([program, "check", *options, row.file], cwd=at(FOLDER), capture_output=True, text=True, timeout=120, check=False)

        strict = run(*STRICT)
        listed = [json.loads(it) for it in strict.stdout.splitlines()]
        runs = [(run(), is_of_types), (run("--rules"), is_of_default), (strict, lambda _: True)]
        self.row = row
        self.has_kind = all(it["rule"] != "kind" for it in listed)
        self.is_right_kind = self.has_kind == row.has_kind()
        if self.is_right_kind and row.has_kind():
            self.is_right_kind = run("--kind", row.kind, *STRICT).stdout == strict.stdout
        self.agree = all(agrees(done, list(filter(is_listed, listed))) for done, is_listed in runs)
        self.found = [it for it in listed if row.has_kind() or it["rule"] != "kind"]

    def of_default(self, level):
        return [it for it in self.found if it["level"] == level and is_of_default(it)]

    def errors(self):
        """The rules of its errors."""
        return {it["rule"] for it in self.of_default("error")}

    def is_wrong(self, reasons):
        """Whether it has errors without a reason, or something is wrong with kind and runs."""
        return any((self.row.file, it) not in reasons for it in self.errors()) or not self.is_right_kind or not self.agree

    def lines(self, reasons):
        """A line for what is wrong with kind and runs, and for each rule at each level, errors first."""
        if not self.is_right_kind:
            yield f"error: the kind is {self.row.kind}, and " + ("another one was found" if self.has_kind else "none was found")
        if not self.agree:
            yield "error: lines, status and JSON disagree"
        groups = {}
        for it in sorted(self.found, key=lambda it: it["level"]):
            groups.setdefault((it["level"], it["rule"], it.get("requirement")), []).append(it)
        for (level, rule, requirement), each in groups.items():
            name = f"{rule} ({requirement})" if requirement else rule
            often = f", {len(each)} times" if len(each) > 1 else ""
            reason = reasons.get((self.row.file, rule)) if level == "error" else None
            yield f"{level}: {name}{often}: {each[0]['pointer'] or 'the whole'}: {each[0]['message']}" + (f" ({reason})" if reason else "")


def print_answer(answer, reasons):
    lines = list(answer.lines(reasons))
    print(f"{answer.row.file} ({answer.row.kind}; {answer.row.producer})" + ("" if lines else ": nothing"))
    for line in lines:
        print(f"  {line}")


def options_of(parser):
    parser.add_argument("--program", metavar="FILE", default=program_of("ciderglen"))


def run(options):
    rows = origins()
    wrong = list(disagreements(rows))
    if wrong:
        print("\n".join(wrong))
        return 1
    answers = [Answer(os.path.abspath(options.program), it) for it in rows]
    reasons = known()
    for answer in answers:
        print_answer(answer, reasons)
    idle = sorted(set(reasons) - {(it.row.file, rule) for it in answers for rule in it.errors()})
    for file, rule in idle:
        print(f"{file}: a reason for {rule}, and no such error")
    errors, warnings = (sum(bool(it.of_default(level)) for it in answers) for level in ("error", "warning"))
    print(f"{len(answers)} documents, {errors} with errors, {warnings} with warnings")
    return int(bool(idle) or any(it.is_wrong(reasons) for it in answers))
