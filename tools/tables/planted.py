"""Mutants of the tables: changes of a text, a number or a default, in definition, code and schema at once, for `tools/mutants --tables`.

It works on a copy of the repository in a temporary folder, and changes nothing here. N changes are picked at random, of these kinds or of
all: `texts`, a letter in a name of an enum, a text of a constant or of an error; `numbers`, a digit in a number of an enum or of a
constant; `paths`, a letter in a text of a default document; `values`, a boolean or a number of a default document; `moved`, an enum's
default, which becomes another variant's. Each is planted wherever the libraries' sources and specifications have it. The golden
tables are run before any proof (`rt try`) for ten changes at once, or as many as are asked for, which are in different texts; where the changed
sources do not compile, for half of them and for the other half.

It prints a line each: `found` with the first row that differs and has the new text in it, or `NOT FOUND`, or `not built`; then how many. The
status is 1 if a change was not found.
"""
import json
import os
import random
import re
import shutil
import subprocess
import tempfile

import golden
from generator.text import snake
from repository import TOP, crates, read, write

PARTS = ("tables", "defaults")
# the crate that has the constants of a module of the original crate
CONSTANTS = {"distribution": "oci_distribution", "image": "oci_image", "runtime": "oci_runtime"}
KINDS = ("texts", "numbers", "paths", "values", "moved")


class Change:
    """What is replaced by what, as pairs of a pattern and a text, and what a row that reports it has in it."""

    def __init__(self, name, old, new, pairs, mark):
        self.name, self.old, self.new, self.pairs, self.mark = name, old, new, pairs, mark


def quoted(name, old, new):
    return Change(name, old, new, [(re.escape(f'"{old}"'), f'"{new}"')], new)


def changed(chance, text):
    """The text with one letter or digit that is another one."""
    places = [it for it, letter in enumerate(text) if letter.isalnum() and (it > 1 or not text.startswith("0x"))]
    if not places:
        return text
    place = chance.choice(places)
    letters = "0123456789abcdef" if text.startswith("0x") else "0123456789" if text[place].isdigit() else "abcdefghijklmnopqrstuvwxyz"
    letters = letters.upper() if text[place].isupper() else letters
    return text[:place] + chance.choice([it for it in letters if it != text[place]]) + text[place + 1:]


def rows():
    """Each row of each table: the table and the row."""
    for path in sorted(f"{golden.DATA}/tables/{name}" for name in os.listdir(f"{golden.DATA}/tables")):
        if path.endswith(".rows"):
            table = os.path.basename(path).removesuffix(".rows")
            yield from ((table, line) for line in read(path).split("\n") if line and line[0] != "#")


def texts(chance):
    for table, row in rows():
        found = re.findall(r'"([^"]+)"', row) if table == "constants" else [] if table == "defaults" else [row.split(" ", 2)[-1]]
        for old in found:
            if not re.fullmatch(r"0x[0-9a-f]{8}|\d+", old):
                yield quoted(f"{table}: {row[:60]}", old, changed(chance, old))


def numbers(chance):
    for table, row in rows():
        old = row.rsplit(" ", 1)[-1]
        if table == "constants" and old.isdigit():
            path, constant = row.split(" ")[0].split("::")
            new = str(int(old) + 1)
            yield Change(f"constants: {row}", old, new, [(rf"(crates/{CONSTANTS[path]}/src/.*\0(?:.*\n)*.*const {constant}: u32 = ){old};", rf"\g<1>{new};")], f"{row.split(' ')[0]} {new}")
        elif re.fullmatch(r"0x[0-9a-f]{8}", old):
            new = changed(chance, old)
            pairs = [(old, new), (f"= {int(old, 16)}\n", f"= {int(new, 16)}\n")]
            if table == "LinuxSeccompOperator":
                pairs.append((rf"(static NUMBERS: \[u32; 7\] = \[.*)\b{int(old, 16)}\b", rf"\g<1>{int(new, 16)}"))
            yield Change(f"{table}: {row}", old, new, pairs, new)


def paths(chance):
    for table, row in rows():
        for old in re.findall(r'"((?:[^"]*[a-z]){2}[^"]*)"(?!:)', row) if table == "defaults" else ():
            yield quoted(f"{table}: {row[:60]}", old, changed(chance, old))


def values(_):
    for table, row in rows():
        name, _, text = row.partition(" ")
        if table != "defaults" or not text.startswith("{") or name.endswith("Builder"):
            continue
        for member, value in json.loads(text).items():
            if isinstance(value, (bool, int)):
                old = json.dumps(value)
                new = json.dumps(not value if isinstance(value, bool) else value + 1)
                field = snake(member)
                pair = (rf"(pub struct {name}\b(?:.*\n)*?.*\b{field}(?:: Some\(|: |\()){old}\b", rf"\g<1>{new}")
                yield Change(f"defaults: {name}.{member}", old, new, [pair], f'"{member}":{new}')


def moved(chance):
    for table, row in rows():
        name, _, text = row.partition(" ")
        if table == "defaults" and text.startswith('"'):
            file = f"{snake(name)}.rt"
            for path in sources(TOP):
                if path.endswith(f"/{file}") and f"pub enum {name}" in read(path):
                    variants = re.findall(r"(?m)^    ([A-Z]\w*)(?=,$)", re.search(r"pub enum \w+ \{\n(.*?)\n\}", read(path), re.S)[1])
                    new = chance.choice(variants)
                    at = rf"(pub enum {name}\b(?:.*\n)*?)"
                    pairs = [(rf"{at}    #\[default\]\n", r"\g<1>"), (rf"{at}(    {new},\n)", r"\g<1>    #[default]\n\g<2>")]
                    if "#[default]" not in read(path):
                        pairs = [(rf"(fn default\(\) -> {name} \{{\n        {name}::)\w+", rf"\g<1>{new}")]
                    yield Change(f"defaults: {row}", text, new, pairs, f"here {name} ")


def sources(top):
    """The files of the libraries' sources and definitions."""
    for folder, _, names in os.walk(f"{top}/crates"):
        crate = os.path.relpath(folder, f"{top}/crates").split("/")[0]
        if crate in crates() and not crates()[crate].is_run() and not {"data", "proofs", "out"} & set(folder.split("/")):
            yield from (f"{folder}/{it}" for it in names if it.endswith((".rt", ".antt")))


class Copy:
    """A copy of the repository, in which changes are planted and taken back."""

    def __init__(self, top):
        self.top, self.kept = top, {}
        shutil.copytree(TOP, top, ignore=shutil.ignore_patterns(".git", "out"))
        self.files = {path: read(path) for path in sources(top)}

    def plant(self, change):
        """Plants a change, and says in how many files."""
        count = 0
        for path, now in list(self.files.items()):
            marked = f"{os.path.relpath(path, self.top)}\0{now}"
            planted = marked
            for was, new in change.pairs:
                planted = re.sub(was, new, planted)
            if planted != marked:
                self.kept.setdefault(path, now)
                self.files[path] = planted.partition("\0")[2]
                write(path, self.files[path])
                count += 1
        return count

    def restore(self):
        for path, text in self.kept.items():
            self.files[path] = text
            write(path, text)
        self.kept = {}

    def run(self):
        """The rows that differ, or None where nothing was built."""
        found = []
        data = [word for it in sorted(os.listdir(f"{golden.DATA}/tables")) for word in ("--data", f"tables/{it}=data/tables/{it}")]
        for part in PARTS:
            words = ["rt", "try", "--seconds", "300", *data, "--", part]
            ran = subprocess.run(words, cwd=f"{self.top}/crates/{golden.NAME}", capture_output=True, text=True, check=False)
            if "run=ended" not in ran.stdout + ran.stderr:
                return None
            expected = golden.expected(part).split("\n")
            found += [it for it in ran.stdout.split("\n") if it not in expected and not it.startswith(("run=", "checked:"))]
        return found


def picked(chance, count, kinds):
    """So many changes, each of a text of its own."""
    found, known = [], set()
    every = [list(globals()[kind](chance)) for kind in kinds]
    while len(found) < count and any(every):
        some = chance.choice([it for it in every if it])
        change = some.pop(chance.randrange(len(some)))
        key = (change.old, change.name) if not change.mark == change.new else change.old
        if change.old != change.new and key not in known and change.new not in known:
            known |= {key, change.new}
            found.append(change)
    return found


def told(change, rows_):
    if rows_ is None:
        return "not built"
    table = change.name.partition(":")[0] + ":"
    first = next((it for it in rows_ if change.mark in it or it.startswith(table) and change.old in it), None)
    return f"found: {first[:120]}" if first else "NOT FOUND"


def try_together(copy, changes):
    """What is said of each change."""
    files = [copy.plant(change) for change in changes]
    ran = copy.run() if any(files) else []
    copy.restore()
    if ran is None and len(changes) > 1:
        half = len(changes) // 2
        return try_together(copy, changes[:half]) + try_together(copy, changes[half:])
    return [(change, count, told(change, ran) if count else "stands in no library") for change, count in zip(changes, files)]


def run(count, seed, at_once, kinds):
    """Plants so many changes, prints what is said of each, and returns the exit status."""
    chance, said, changes = random.Random(seed), [], []
    with tempfile.TemporaryDirectory() as folder:
        copy = Copy(f"{folder}/copy")
        for change in picked(chance, 3 * count, kinds or KINDS):
            if len(changes) < count and copy.plant(change):
                changes.append(change)
            copy.restore()
        for at in range(0, len(changes), at_once):
            for change, files, it in try_together(copy, changes[at:at + at_once]):
                said.append(it)
                print(f"{change.name}: {change.old} -> {change.new} in {files} files: {it}", flush=True)
    missed, unbuilt = said.count("NOT FOUND"), said.count("not built")
    print(f"{len(said) - missed - unbuilt} found, {missed} not found, {unbuilt} not built")
    return 1 if missed else 0
