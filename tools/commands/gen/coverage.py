"""The page docs/COVERAGE.md: which public names of the original crate are here, and why the others are not.

It prints the names with neither a counterpart nor a reason; the status is then 1. With --own it prints the public names of the facade
`oci_spec` that the crate does not have.

tools/data/upstream.names has the crate's names, a line each: module, kind, name. The names of this project are those of the facade. The reasons
are below, each a pattern of names; docs/DIFFERENCES.md has them at length.
"""
import collections
import re

from pages import sources
from repository import brought_up_to_date, rows as rows_of

LIST, PAGE = "tools/data/upstream.names", "docs/COVERAGE.md"
FACADE = "oci_spec"
REASONS = [
    (r".*: (Serialize|Deserialize<.*>)$", "`OciRecord`, `OciMember`, `JsonName` in place of serde's traits"),
    (r".*: Arbitrary$", "generators of test values are left out"),
    (r".*: Default$", "`try_default(alloc)`, or the derived `default` of a name"),
    (r".*: FromStr$", "the inherent `from_str`"),
    (r".*: AsRef<str>$", "the inherent `as_ref`"),
    (r"(Digest|Reference|\w*NamespaceType): TryFrom<.*>$", "the inherent `try_from`, `from_str`"),
    (r"(MediaType|Os|Arch|DigestAlgorithm): From<&str>$", "`from_text(alloc, text)`"),
    (r"String: From<(MediaType|Reference)>$", "`into_string`"),
    (r"Digest: From<Sha256Digest>$", "`Sha256Digest::into_digest`"),
    (r"LinuxDeviceCgroup: From<&LinuxDevice>$", "`cgroup_of(alloc, device)`"),
    (r"ArtifactManifestBuilder::media_type$", "no setter: the media type of an artifact manifest is one"),
]
INTRODUCTION = """# Coverage

Which public names of the original crate `oci-spec` 0.10.0 have their counterpart here. Written by `tools/gen coverage` from
`tools/data/upstream.names` and the sources; `tools/gen coverage --check` compares, and names what is missing. A row says how many names
of a type, or of a module's own calls and constants, are here under the same name, and names the others with what is in their place.
"""


def traits_of(item):
    """The traits that a type implements, as its name and the trait's."""
    heads = [impl.head() for impl in sources.impls_by_type().get(item, ())]
    traits = [re.sub(r"^impl(<.*?>)? ", "", head.partition(" for ")[0]).replace("fmt::", "") for head in heads if " for " in head]
    return item.derives() + traits


def names_of(name, item):
    """The public names of an item: its own, its calls and its traits, and what others implement for it."""
    yield name
    for impl in sources.impls_by_type().get(item, ()):
        if " for " not in impl.head():
            yield from (f"{name}::{call.name}" for call in impl.inner() if call.kind == "fn" and call.public)
    if item.kind in ("struct", "enum"):
        yield from (f"{name}: {trait}" for trait in traits_of(item))


def into_others(names):
    """The conversions from types of a module into others, as `u32: From<LinuxSeccompAction>`."""
    for owner in sources.crates():
        for impl in owner.impls():
            found = re.fullmatch(r"impl From<(\w+)> for (\w+)", impl.head())
            if found and found[1] in names:
                yield f"{found[2]}: From<{found[1]}>"


def here():
    """The public names of the facade, by modules."""
    facade = sources.crate(FACADE)
    modules = {"lib": (facade, ()), **{name: (owner, module) for name, owner, module in sources.public_modules(facade)}}
    found = {}
    for module, place in modules.items():
        found[module] = {it for name, item in sources.public_names(*place) for it in names_of(name, item)}
        found[module] |= set(into_others(found[module]))
    return found


def upstream():
    return [line.split(" ", 2) for line in rows_of(LIST)]


def reason(name):
    return next((why for pattern, why in REASONS if re.fullmatch(pattern, name)), None)


def owner_of(kind, name):
    """The type that a name belongs to; nothing for a module's own."""
    return re.split(r"::|: ", name)[0] if re.search(r"::|: ", name) else name if kind in ("type", "trait") else ""


def compared(listed, names):
    """Of each module and type the names that are here, and the others with reasons; and the names that have neither."""
    rows, missing = collections.OrderedDict(), []
    for module, kind, name in listed:
        there, others = rows.setdefault((module, owner_of(kind, name)), ([], []))
        why = reason(name)
        if name in names[module]:
            there.append(name)
        elif why:
            others.append((name, why))
        else:
            missing.append(f"{module} {kind} {name}")
    return rows, missing


def row(owner, there, others):
    """A row of the page; names with one reason are listed together."""
    by_reason = collections.OrderedDict()
    for name, why in others:
        by_reason.setdefault(why, []).append(f"`{re.sub(rf'^{owner}(::|: )', '', name) if owner else name}`")
    otherwise = [f"{', '.join(names)}: {why}" for why, names in by_reason.items()]
    return f"| {f'`{owner}`' if owner else 'the module'} | {len(there)} | {'; '.join(otherwise)} |"


def page(rows):
    lines = INTRODUCTION.split("\n")
    for module in dict.fromkeys(module for module, _ in rows):
        lines += [f"## {'The crate itself' if module == 'lib' else f'Module `{module}`'}", "", "| of | here | otherwise |", "|---|---|---|"]
        lines += [row(owner, *names) for (it, owner), names in rows.items() if it == module] + [""]
    return "\n".join(lines)


def own(listed, names):
    """The facade's names that the crate does not have, without traits."""
    theirs = {(module, name) for module, _, name in listed}
    return [f"{module} {name}" for module in names for name in sorted(names[module]) if (module, name) not in theirs and ": " not in name]


def options_of(parser):
    parser.add_argument("--own", action="store_true", help="print the names that the crate does not have")


def run(options):
    listed, names = upstream(), here()
    rows, missing = compared(listed, names)
    if options.own:
        print("\n".join(own(listed, names)))
        return 0
    print("\n".join(missing) or f"all {len(listed)} names have a counterpart or a reason")
    return brought_up_to_date({PAGE: page(rows)}, options.check) or bool(missing)
