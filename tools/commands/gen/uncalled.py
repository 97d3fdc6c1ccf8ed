"""The public calls that no test, program or example reaches.

It prints each such call with its kind, and how many calls are reached, and writes nothing. With --check it prints those that
tools/data/uncalled.reasons does not explain, and the reasons that explain none; the status is then 1.

The calls are those of docs/API.md. A call is reached from the crates that are run: programs, tests and examples. It is reached if a function
that is reached names it: as `Type::call`, as a call of its module, or as `.call(` in a file that names the type; a call of a trait
through any of its types. So the tool reads names and knows no types: it may take a call for reached that is not, where two types of one
file have a call of one name.

A line of tools/data/uncalled.reasons is `PATTERN | reason`, with a pattern of `KIND NAME`. The kinds: `accessor` and `setter`, whose contract is
an equation; `total`, a call with a contract that cannot fail; `law`; `open`, any other.
"""
import functools
import os
import re

from pages import api, sources
from repository import TOP, crates, read, rows as rows_of

REASONS = "tools/data/uncalled.reasons"
NAMED = re.compile(r"(?<![\w.])((?:[\w$]+(?:::<[^<>]*>)?::)*)([a-z_]\w*)\b(?!!)")
METHOD = re.compile(r"\.\s*([a-z_]\w*)\s*(?:::<|\()")


class Function:
    """A function with its body, the type that it belongs to, and the trait that has it; or a file that is run, as a whole."""

    def __init__(self, owner, module, text, item=None, of=None, trait=None):
        self.owner, self.module, self.item, self.of, self.trait = owner, module, item, of, trait
        self.text = re.sub(r'//.*|r#".*?"#|"(?:\\.|[^"\\])*"', " ", text, flags=re.S if item is None else 0)


def files_of(owner):
    """The files of a crate that is run."""
    for folder, _, names in os.walk(f"{TOP}/crates/{owner.name}/src"):
        for name in (it for it in names if it.endswith(".rt")):
            path = os.path.relpath(f"{folder}/{name}", f"{TOP}/crates/{owner.name}/src").removesuffix(".rt")
            text = re.sub(r"//.*", "", read(f"{folder}/{name}"))
            yield Function(owner, () if path in ("lib", "main") else tuple(path.split("/")), text)


def functions_of(owner):
    """All functions of a crate."""
    for items in owner.modules.values():
        for item in items:
            text = "\n".join(item.lines)
            if item.kind == "fn":
                yield Function(owner, item.module, text, item)
            elif item.kind == "impl":
                head = re.sub(r"^impl(<.*?>)? ", "", item.head())
                trait, _, of = head.rpartition(" for ")
                name = re.match(r"&?(?:'\w+ )?(?:\w+::)*(\w+)", of)
                target = sources.resolve(owner, item.module, name[1]) if name else None
                trait = re.sub(r"<.*", "", trait).rpartition("::")[2] or None
                yield from (Function(owner, it.module, "\n".join(it.lines), it, target, trait) for it in item.inner() if it.kind == "fn")
            elif item.kind == "trait":
                yield from (Function(owner, it.module, "\n".join(it.lines), it, item, item.name) for it in item.inner() if it.kind == "fn")


@functools.lru_cache(None)
def text_of(owner, module):
    """What a module's file says, on one line an item."""
    return "\n".join("\n".join(item.lines) for item in owner.modules[module])


@functools.lru_cache(None)
def types_of(owner, module):
    """The types that a module names, also behind the name of another module, as `runtime::Spec`, `runtime Spec` or `runtime: Spec, State`."""
    found = set()
    for path in set(re.findall(r"(?:\b[a-z_]\w*(?:::|:?\s+))?\b[A-Z]\w*(?:,?\s+[A-Z]\w*)*", text_of(owner, module))):
        words = re.split(r"[:,\s]+", path)
        place = place_of(owner, module, words[:1]) if words[0][0].islower() or words[0][0] == "_" else None
        for name in words:
            item = sources.resolve(owner, module, name) or (sources.resolve(*place, name) if place else None)
            if isinstance(item, sources.Item):
                found.add(item)
    return found


def place_of(owner, module, path):
    """The crate and the module that a path leads to, also where its first part was imported."""
    for item in owner.modules[module]:
        for alias, whole in sources.imports(item):
            if alias == path[0]:
                path = [*whole, *path[1:]]
    found = sources.place_of(owner, module, path)
    if found and found[1] not in found[0].modules:
        for name, other, at in sources.public_modules(found[0], found[1][:-1]) if found[1][:-1] in found[0].modules else ():
            if name == found[1][-1]:
                return other, at
        return None
    return found


class Program:
    """All functions of the repository, and which of them are reached."""

    def __init__(self):
        self.by_name, self.reached, self.pending = {}, set(), []
        for owner in sources.crates():
            for it in functions_of(owner):
                self.by_name.setdefault(it.item.name, []).append(it)
        for listed in (it for it in crates().values() if it.is_run()):
            for it in files_of(sources.Crate(listed.name, tests=True)):
                self.reach(it)
        while self.pending:
            self.follow(self.pending.pop())

    def reach(self, function):
        if function not in self.reached:
            self.reached.add(function)
            self.pending.append(function)

    def follow(self, function):
        module = function.module
        for name in set(METHOD.findall(function.text)):
            self.method(function, module, name)
        for path, name in set(NAMED.findall(function.text)):
            self.named(function, module, [it for it in re.sub(r"::<[^<>]*>", "", path).split("::") if it], name)

    def method(self, function, module, name):
        found = [it for it in self.by_name.get(name, ()) if it.of]
        view = types_of(function.owner, module) | {function.of}
        for it in found:
            if it.trait or len({other.of for other in found}) == 1 or it.of in view:
                self.reach(it)

    def named(self, function, module, path, name):
        found = self.by_name.get(name, ())
        if not path:
            item = sources.resolve(function.owner, module, name)
            for it in found:
                if it.item is item or it.item.lines == getattr(item, "lines", None):
                    self.reach(it)
            return
        last = path[-1]
        target = function.of if last == "Self" else self.type_of(function, module, path)
        generic = last.startswith("$") or (last[0].isupper() and not target)
        view = types_of(function.owner, module)
        for it in found:
            if it.of is None:
                place = place_of(function.owner, module, path) if not last[0].isupper() and "$" not in last else None
                if place and (it.item.crate, it.item.name) in exports(place, name):
                    self.reach(it)
            elif it.of is target or it.trait and generic or (generic and it.of in view):
                self.reach(it)

    def type_of(self, function, module, path):
        item = sources.resolve(function.owner, module, path[-1])
        if not item and len(path) > 1:
            place = place_of(function.owner, module, path[:-1])
            item = sources.resolve(*place, path[-1]) if place and place[1] in place[0].modules else None
        return item if isinstance(item, sources.Item) else None


def exports(place, name):
    """The function of this name that a module offers, as the crate and its name."""
    if place[1] not in place[0].modules:
        return set()
    item = sources.resolve(*place, name)
    return {(item.crate, item.name)} if isinstance(item, sources.Item) else set()


def kind_of(call):
    """What a reason may be given for."""
    for kind, patterns in api.ACCESSORS.items():
        if api.word_of(call, patterns):
            return "accessor" if kind in ("get", "copy", "mut") else "setter"
    if call.module and call.module[-1].startswith("law"):
        return "law"
    fails = re.match(r"(\w+::)*Result\b", api.result_of(call))
    return "open" if fails or not call.clauses() else "total"


def pages():
    """The modules of docs/API.md."""
    for root in api.ROOTS:
        seen, waiting = set(), [(root, sources.crate(root), ())]
        while waiting:
            name, owner, module = waiting.pop()
            if (owner, module) in seen:
                continue
            seen.add((owner, module))
            yield name, owner, module
            waiting += [(f"{name}::{it}", other, at) for it, other, at in sources.public_modules(owner, module)]


def calls():
    """Each public call once: its page and name, its item, and the type that has it."""
    seen = set()
    for page, owner, module in pages():
        for name, item in sources.public_names(owner, module):
            if item.kind == "fn":
                found = [(f"{page}::{name}", item)]
            else:
                found = [(f"{page}::{name}::{it.name}", it) for it in api.inherent_calls(item)]
                found += [(f"{page}::{name}::{it.name}", it) for it in item.inner() if it.kind == "fn"] if item.kind == "trait" else []
            for whole, it in found:
                key = (it.crate, it.module, whole.rsplit("::", 2)[-2] if item.kind != "fn" else "", it.name)
                if key not in seen:
                    seen.add(key)
                    yield whole, it


def uncalled():
    """The calls that are not reached, with their kinds, and how many are."""
    reached = {(it.item.crate, it.item.module, tuple(it.item.lines)) for it in Program().reached if it.item}
    missing, count = [], 0
    for name, item in calls():
        if (item.crate, item.module, tuple(item.lines)) in reached:
            count += 1
        else:
            missing.append(f"{kind_of(item)} {name}")
    return sorted(missing), count


def run(options):
    missing, count = uncalled()
    if not options.check:
        print("\n".join(missing))
        print(f"{count} calls are reached, {len(missing)} are not")
        return 0
    reasons = [line.split(" | ")[0].strip() for line in rows_of(REASONS)]
    unexplained = [it for it in missing if not any(re.fullmatch(reason, it) for reason in reasons)]
    idle = [reason for reason in reasons if not any(re.fullmatch(reason, it) for it in missing)]
    for it in unexplained:
        print(f"not reached, and not explained: {it}")
    for reason in idle:
        print(f"explains nothing: {reason}")
    return 1 if unexplained or idle else 0
