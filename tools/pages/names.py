"""What pages may name: the files of the repository, its crates, what these declare, and the clauses of calls."""
import fnmatch
import functools
import glob
import re
import subprocess

from pages import sources
from repository import TOP, crates, folder_of, read

KINDS = r"(?:fn|struct|enum|trait|const|static|mod|type)"
# the calls of the traits of the standard library that types have
DERIVED = {"clone", "default", "eq", "fmt", "to_string", "hash", "cmp", "partial_cmp"}


@functools.lru_cache(None)
def files():
    """All files of the repository, and their folders."""
    words = ["git", "ls-files", "-co", "--exclude-standard"]
    found = set(subprocess.run(words, cwd=TOP, capture_output=True, text=True, check=True).stdout.split("\n")) - {""}
    return found | {path[:at] for path in found for at, letter in enumerate(path) if letter == "/"}


@functools.lru_cache(None)
def tails():
    """The files and folders by all that their paths end in, as `src/lib.rt`."""
    return {path[at:] for path in files() for at in (0, *(at + 1 for at, letter in enumerate(path) if letter == "/"))}


def has_file(path):
    """Whether there is a file or folder of this path or of this end of a path; words in capitals and stars stand for any name."""
    pattern = re.sub(r"(?<![A-Za-z])[A-Z]+(?![a-z_])(?!\.md)|RECORD", "*", path)
    return path in tails() or "*" in pattern and bool(fnmatch.filter(tails(), pattern))


@functools.lru_cache(None)
def texts(crate):
    """The sources of a crate, without remarks."""
    return [re.sub(r"(?m)^ *//.*$", "", read(path)) for path in sorted(glob.glob(f"{folder_of(crate)}/src/**/*.rt", recursive=True))]


@functools.lru_cache(None)
def public_names(crate):
    """The names that a crate declares in public or offers from other crates, at any depth; calls of traits among them."""
    text = "\n".join(texts(crate))
    found = set(re.findall(rf"\bpub (?:const )?{KINDS} (\w+)", text))
    found |= {it for trait in re.findall(r"(?ms)^pub trait .*?^\}", text) for it in re.findall(r"\bfn (\w+)", trait)}
    found |= {it for use in re.findall(r"\bpub use ([^;]*);", text) for it in re.findall(r"\w+", use)}
    return found.union(*(public_names(it) for it in re.findall(r"\bpub use (\w+)::(?:\w+::)*\*", text) if it in crates() and it != crate))


@functools.lru_cache(None)
def all_public():
    return DERIVED.union(*map(public_names, crates()))


@functools.lru_cache(None)
def kit():
    """The crates of the kit that this repository uses."""
    return {"std", "core"}.union(*(it.uses for it in crates().values())) - set(crates())


@functools.lru_cache(None)
def all_words():
    """All words of the sources."""
    return {word for crate in crates() for text in texts(crate) for word in re.findall(r"\w+", text)}


@functools.lru_cache(None)
def blocks():
    """The texts of the files that declare each type, or implement something for it, by its name."""
    found = {}
    for text in (it for crate in crates() for it in texts(crate)):
        heads = re.findall(r"\b(?:struct|enum|trait|type) (\w+)", text)
        around = [word for head in re.findall(r"(?m)^impl\b[^{]*", text) for word in re.findall(r"\b[A-Z]\w+", head)]
        for name in {*heads, *around}:
            found.setdefault(name, []).append(text)
    return found


@functools.lru_cache(None)
def has_member(kind, name):
    """Whether a type has a call, a constant, a variant or a field of this name, or may have it from a trait."""
    pattern = re.compile(rf"\b(?:fn|const) {name}\b|^ +(?:pub )?{name}\b *[:,({{=]", re.M)
    return name in DERIVED or any(map(pattern.search, blocks().get(kind, ())))


def clauses_of(item):
    """What the clauses of an item are found under: its name and those of what holds it; and the clauses' names."""
    if item.kind == "fn":
        yield [item.name, *item.module[-1:], item.crate], {item.name, *(name for _, name, _ in item.clauses())}
    elif item.kind in ("impl", "trait"):
        # (an impl has the facts of its trait by name, as `ghost output = ..`)
        facts = set(re.findall(r"(?m)^ +ghost (\w+)", "\n".join(item.lines)))
        around = re.findall(r"\b[A-Z]\w+", item.head())
        for call in (it for it in item.inner() if it.kind == "fn"):
            yield [call.name, *around, *call.module[-1:], call.crate], facts | {name for _, name, _ in call.clauses()}


@functools.lru_cache(None)
def clauses():
    """The names of clauses, by calls, and by the types, traits, modules and crates that have the calls; of a module its laws too."""
    found = {}
    for item in (it for owner in sources.crates() for items in owner.modules.values() for it in items):
        for holders, names in clauses_of(item):
            for holder in holders:
                found.setdefault(holder, set()).update(names)
    return found
