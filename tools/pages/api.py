"""Writes docs/API.md: the public types, constants and calls, with their contracts, as `sources` reads them."""
import glob
import re

from pages import sources

# the crates whose public names the page lists; of each, its modules follow
ROOTS = ("oci_spec", "oci_json", "oci_text", "oci_reference", "oci_pin")
LONGEST_VALUE = 100
# what an impl's ghost members prove, which says nothing of what the trait does for the type
PROOFS = {"laws", "well_formed", "same", "back", "told", "respects_eq", "values", "invariant", "view"}
# an accessor's contract, with what its call does; FIELD is the field
ACCESSORS = {
    "get": [r"result\.now ≡ self\.now\.(\w+)"],
    "copy": [r"result ≡ self\.now\.(\w+)"],
    "mut": [r"sem 𝓛 \(lends_\w+ self\.entry result\)", r"result\.now ≡ self\.old\.(\w+)"],
    "set": [r"result\.now ≡ record self\.old \{ (\w+) = «?\w+»? \}", r"result\.ghost_name ≡ self\.entry\.ghost_name"],
    "build": [r"result ≡ record self \{ (\w+) = Some «?\w+»? \}"],
}
# calls that records have with one contract; NAME is the contract's own word
MEMORY = r"IfErr result \(λ e\. e ≡ OciSpecError\.Memory\)"
SHARED = {
    "clone": [r"IfOk result \(λ x\. (\w+) x ≡ \1 self\.now\)", MEMORY],
    "try_default": [r"IfOk result \(λ x\. \w+ x ≡ (\w+)\)", MEMORY],
}
INTRODUCTION = """# API

Written by `tools/gen api` from the sources; `tools/gen api --check` compares. The facade `oci_spec` comes first, module by module, then
the crates `oci_json`, `oci_text`, `oci_reference` and `oci_pin`, with what the facade does not have. The words of the
contracts are defined in the crates' `specs/`; `rt lemma WORD` prints a definition.

Of a call the page shows the signature and its clauses. In a clause `x.now` is what a reference points to, and `self.old` and `self.new`
are what a mutable one points to before and after the call. `IfOk result p` says p of the value where the result is `Ok`, `IfErr result p`
says it of the error where it is `Err`, and `OnOk result p` says p where the result is `Ok`.

Records have tables of accessors, whose contracts are these, for a member `x` with the type `T`:

| column | call | contract |
|---|---|---|
| read: reference | `x(&self) -> &T` | `result.now ≡ self.now.x` |
| read: copy | `x(&self) -> T` | `result ≡ self.now.x` |
| mutable | `x_mut(&mut self) -> &mut T` | `writes_back`: what the reference holds at its end is the member `x` of the record, and all else is as before (`lends_x`); `value`: `result.now ≡ self.old.x` |
| set | `set_x(&mut self, x: T) -> &mut Self` | `set`: `result.now ≡ record self.old { x = x }`; `same`: `result.ghost_name ≡ self.entry.ghost_name` |
| builder | of the builder, `x(self, x: U) -> Self`, with `U` in the column | `result ≡ record self { x = Some x }` |

Two more calls have one contract in all records; `plain` is the record's content, and `DEFAULT` is named beside the record:

| call | contract |
|---|---|
| `clone(&self, alloc: Global) -> Result<Self>` | `ok`: `IfOk result (λ x. plain x ≡ plain self.now)`; `err`: `IfErr result (λ e. e ≡ OciSpecError.Memory)` |
| `try_default(alloc: Global) -> Result<Self>` | `ok`: `IfOk result (λ x. plain x ≡ DEFAULT)`; `err`: `IfErr result (λ e. e ≡ OciSpecError.Memory)` |
"""


def cell(text):
    return re.sub(r"\s+", " ", text).replace("|", "\\|")


def code(text):
    mark = "``" if "`" in text else "`"
    space = " " if "`" in text else ""
    return f"{mark}{space}{cell(text)}{space}{mark}" if text else ""


def table(titles, rows):
    """A table, without the columns that are empty throughout."""
    kept = [at for at in range(len(titles)) if any(row[at] for row in rows)]
    lines = ["| " + " | ".join(titles[at] for at in kept) + " |", "|" + "---|" * len(kept)]
    return lines + ["| " + " | ".join(row[at] for at in kept) + " |" for row in rows] + [""]


def fence(lines):
    return ["```rust", *lines, "```", ""]


def word_of(call, patterns):
    """What a call's clauses name, where they are those of the patterns; else None."""
    clauses = [text for _, _, text in call.clauses()]
    if len(clauses) != len(patterns):
        return None
    found = [re.fullmatch(pattern, text) for pattern, text in zip(patterns, clauses)]
    return next(it[1] for it in found if it.re.groups) if all(found) else None


def shared_lines(calls):
    """A line on those of the calls that records share, and the other calls."""
    told, others = [], []
    for call in calls:
        word = word_of(call, SHARED[call.name]) if call.name in SHARED else None
        if word:
            told.append(f"`{call.name}`" + (f" (`{word}`)" if call.name == "try_default" else ""))
        else:
            others.append(call)
    return ([f"As above: {', '.join(told)}.", ""] if told else []), others


def inherent_calls(item):
    impls = sources.impls_by_type().get(item, ())
    return [call for impl in impls if " for " not in impl.head() for call in impl.inner() if call.kind == "fn" and call.public]


def result_of(call):
    return call.signature().partition(") -> ")[2]


def argument_of(call):
    return re.search(r": ([^:]*)\)(?: ->|$)", call.signature().replace("::", "\0"))[1].replace("\0", "::")


class Accessors:
    """The accessors of a record, by fields, and the calls that are none."""

    def __init__(self, item, builder):
        self.fields, self.others = {}, []
        for call in inherent_calls(item):
            self.add(call, ("get", "copy", "mut", "set"), self.others)
        self.building = []
        for call in inherent_calls(builder) if builder else ():
            self.add(call, ("build",), self.building)

    def add(self, call, kinds, others):
        for kind in kinds:
            field = word_of(call, ACCESSORS[kind])
            if field and (kind != "get" or result_of(call).startswith("&")):
                self.fields.setdefault(field, {})[kind] = call
                return
        others.append(call)

    def row(self, field):
        calls = self.fields[field]
        read = calls.get("get") or calls.get("copy")
        name = read.name if read else field
        kind = argument_of(calls["set"]) if "set" in calls else result_of(read).removeprefix("&") if read else ""
        how = "reference" if "get" in calls else "copy" if "copy" in calls else ""
        doc = (read or next(iter(calls.values()))).doc
        mutable, setter, taken = calls.get("mut"), calls.get("set"), calls.get("build")
        return (code(name), code(kind), how, code(mutable.name if mutable else ""), code(setter.name if setter else ""),
                code(argument_of(taken)) if taken else "", cell(doc))

    def lines(self):
        titles = ("member", "type", "read", "mutable", "set", "builder", "what it is")
        return table(titles, [self.row(field) for field in self.fields]) if self.fields else []


def call_lines(call):
    return ([call.doc, ""] if call.doc else []) + fence(call.contract())


def implements(item):
    """A line on the traits that a type has for a user: those that are derived, and the others with what their ghost members say. A trait
    of a program is its own."""
    told = [f"`{word}`" for word in item.derives() if word != "Error"]
    for impl in sources.impls_by_type().get(item, ()):
        if " for " not in impl.head() or sources.crate(impl.crate).is_program:
            continue
        name = re.sub(r"^impl(<.*?>)? ", "", impl.head().partition(" for ")[0]).replace("fmt::", "")
        texts = [re.sub(r"\s+", " ", " ".join(it.lines)) for it in impl.inner() if it.kind == "ghost"]
        ghosts = [re.match(r"ghost (\w+) = \{ (.*) \};", text) for text in texts]
        says = [f"`{it[1]}` is `{it[2]}`" for it in ghosts if it and it[1] not in PROOFS and len(it[2]) <= LONGEST_VALUE]
        told.append(f"`{name}`" + (f" ({', '.join(says)})" if says else ""))
    return [f"Implements {', '.join(dict.fromkeys(told))}.", ""] if told else []


def equations(item):
    """What the specs say of an enum's variants: of each function its texts or numbers, by variants."""
    found = {}
    for path in sorted(glob.glob(f"{sources.TOP}/crates/{item.crate}/specs/*.antt")):
        with open(path, encoding="utf-8") as file:
            text = file.read()
        for function in re.findall(rf"(?m)^(?:abbrev )?pub (\w+) : {item.name} → ", text):
            values = re.findall(rf'(?m)^{function} (\w+) = (?:(?:variant \(|Some \()?codes "(.*?)"\)?|(\d+))$', text)
            rest = re.search(rf"(?m)^{function} \w+ = (\w+) \w+$", text)
            if values:
                found[function] = ({name: value or number for name, value, number in values}, rest[1] if rest else None)
    return {name: {**(found[rest][0] if rest in found else {}), **values} for name, (values, rest) in found.items()}


def heading_of(function, item):
    """What a function of the specs is called in a table: the trait or the call of the type whose contract names it."""
    impls = sources.impls_by_type().get(item, ())
    for trait, title in (("OciMember", "JSON text"), ("ClosedName", "JSON text"), ("Display", "displayed")):
        if any(re.search(rf"\b{trait} for ", it.head()) and re.search(rf"\b{function}\b", "\n".join(it.lines)) for it in impls):
            return title
    for impl in impls:
        calls = [it.name for it in impl.inner() if it.kind == "fn"]
        if any(re.fullmatch(rf"ghost \w+ = \{{ {function} \}};", " ".join(it.lines)) for it in impl.inner()) and calls:
            return f"`{calls[0]}()`"
    for call in inherent_calls(item):
        if any(re.fullmatch(rf"result(\.now)? ≡ {function} self\.now", text) for _, _, text in call.clauses()):
            return f"`{call.name}()`"
    return f"`{function}`"


def default_of(item):
    """The variant that an enum's own `Default` impl returns, if it has one."""
    for impl in sources.impls_by_type().get(item, ()):
        found = re.search(rf"fn default\(\) -> {item.name} \{{\s*{item.name}::(\w+)\s*\}}", "\n".join(impl.lines))
        if found and "Default for" in impl.head():
            return found[1]
    return None


def variants_of(item):
    """A table of an enum's variants, with their texts and numbers."""
    known, default = equations(item), default_of(item)
    titles = ["variant", *(heading_of(function, item) for function in known), "displayed", "what it is"]
    rows = []
    for variant in item.inner():
        text = re.sub(r",$", "", " ".join(line.strip() for line in variant.lines))
        name = re.match(r"\w+", text)[0]
        shown = re.search(r'#\[error\("(.*)"\)\]', " ".join(variant.attributes))
        is_default = "#[default]" in variant.attributes or name == default
        doc = f"{variant.doc} (default)".strip() if is_default else variant.doc
        values = [code(values.get(name, "")) for values in known.values()]
        rows.append((code(text), *values, code(shown[1]) if shown else "", cell(doc)))
    return table(titles, rows)


def struct_lines(item, builder):
    """A struct: its public fields, its accessors, and its other calls; of its builder what is not a setter."""
    fields = [it for it in item.inner() if it.public] if len(item.lines) > 1 else []
    parted = [(*it.lines[0].removeprefix("pub ").rstrip(",").split(": ", 1), it.doc) for it in fields]
    rows = [(code(field), code(kind), cell(doc)) for field, kind, doc in parted]
    lines = table(("field", "type", "what it is"), rows) if rows else []
    shown = re.search(r'#\[error\("(.*?)"', " ".join(item.attributes))
    lines += [f"Displayed as {code(shown[1])}.", ""] if shown else []
    accessors = Accessors(item, builder)
    lines += accessors.lines()
    shared, others = shared_lines(accessors.others)
    for call in others:
        lines += call_lines(call)
    lines += shared
    if builder:
        derived = "; `default()` has none set" if "Default" in builder.derives() else ""
        lines += [f"**`{builder.name}`** makes it of the members that were set{derived}.", ""]
    for call in accessors.building:
        lines += call_lines(call)
    return lines


def trait_lines(item):
    lines = [item.lines[0]]
    for part in item.inner():
        lines += [""] if len(lines) > 1 else []
        lines += [f"    /// {line}".rstrip() for line in part.doc.split("\n")] if part.doc else []
        own = [*part.contract()[:-1], part.contract()[-1] + ";"] if part.kind == "fn" else part.lines
        lines += [f"    {line}" for line in own]
    return fence([*lines, "}"])


def type_lines(name, item, builder):
    """A type under its heading."""
    other = f", `{item.name}` in its crate" if item.name != name else ""
    lines = [f"### `{name}`", "", (item.doc or "No description.") + other, ""]
    if item.kind == "enum":
        lines += variants_of(item) + implements(item)
        for call in inherent_calls(item):
            lines += call_lines(call)
    elif item.kind == "struct":
        lines += implements(item) + struct_lines(item, builder)
    elif item.kind == "trait":
        lines += trait_lines(item)
    else:
        lines += fence(item.lines)
    return lines


def value_of(item):
    """The type and the value of a constant; no value where it is long."""
    text = re.sub(r"\s+", " ", " ".join(item.lines))
    found = re.match(r"pub (?:const|static) \w+: (.*?) = (.*);$", text)
    return found[1], found[2] if len(found[2]) <= LONGEST_VALUE else ""


class Page:
    """The page as it is written; what was listed once is named by its first place after that."""

    def __init__(self):
        self.lines, self.places, self.contents, self.unknown = [], {}, [], []

    def module(self, path, owner, module):
        names = sources.public_names(owner, module)
        known = [(name, item) for name, item in names if item in self.places]
        new = [(name, item) for name, item in names if item not in self.places]
        for name, item in new:
            self.places[item] = f"{path}::{name}"
        if new:
            self.contents.append(path)
            self.lines += [f"## `{path}`", "", owner.about[module], ""]
            self.items(new)
        self.unknown += [f"{path}::{name}" for name in sources.unknown_names(owner, module)]
        of_kit = sources.names_of_the_kit(owner, module)
        if of_kit:
            self.lines += ["Of the kit: " + ", ".join(f"`{name}` is `{item}`" for name, item in of_kit.items()) + ".", ""]
        if known and not module:
            self.lines += ["Also here: " + ", ".join(f"`{self.places[item]}`" for _, item in known) + ".", ""]
        for name, other, inner in sources.public_modules(owner, module):
            self.module(f"{path}::{name}", other, inner)

    def items(self, new):
        names = dict(new)
        builders = {name: item for name, item in new if name.endswith("Builder") and name.removesuffix("Builder") in names}
        for name, item in new:
            if item.kind in ("struct", "enum", "trait", "type") and name not in builders:
                self.lines += type_lines(name, item, builders.get(f"{name}Builder"))
        constants = [(name, item) for name, item in new if item.kind in ("const", "static")]
        if constants:
            rows = [(code(name), *map(code, value_of(item)), cell(item.doc)) for name, item in constants]
            self.lines += ["### Constants", "", *table(("constant", "type", "value", "what it is"), rows)]
        calls = [item for _, item in new if item.kind == "fn"]
        if calls:
            self.lines += ["### Calls", ""]
        for call in calls:
            self.lines += call_lines(call)


def page():
    """The whole page, and what it lacks: names that are re-exported and that nothing declares."""
    it = Page()
    for name in ROOTS:
        it.module(name, sources.crate(name), ())
    contents = [f"- [`{path}`](#{re.sub(r'[^a-z_]', '', path)})" for path in it.contents]
    introduction = INTRODUCTION.rstrip("\n").split("\n")
    text = "\n".join([*introduction, "", *contents, "", *it.lines]).rstrip("\n") + "\n"
    return text, [f"nothing declares {name}" for name in it.unknown]
