"""docs/RULES.md: each rule with its place, its level and what gives it, section, what is wanted, and what peers do; a table a document."""
import os

from rule_books import agreements, sources
from rule_books.model import LEVELS, PLATFORMS, POSIX

TITLES = {
    "annotations": "Annotations of images", "descriptor": "Descriptors", "manifest": "Image manifests", "index": "Image indexes",
    "config": "Image configurations", "others": "Layouts, artifacts, lists, errors, references", "runtime_annotations": "Annotations of containers",
    "spec": "`config.json`: document, root, mounts, hooks", "process": "`config.json`: process", "linux": "`config.json`: Linux",
    "platforms": "`config.json`: other platforms", "state": "States and process states", "features": "Features",
}
HEAD = """# Rules

Written by `tools/gen rules` from `tools/rules`; `tools/gen rules --check` compares.

What the specifications ask of a document beyond the types of its members, as far as the document alone shows it. A rule is listed where a
part breaks it, with the part's JSON Pointer; a part of another type breaks none, since the schema rejects it.

The rules hold to these texts: {versions}. The older one is the last that has artifact manifests. Where
another version says otherwise, theirs counts. Of the distribution specification no text was at hand: the rules of tags, repositories, errors
and references are from its grammar as the original crate has it. `ciderglen rules` ends with these versions.

- **Levels.** By the word of the sentence that a rule is from: `must` is MUST, REQUIRED and their negatives, `should` is SHOULD, RECOMMENDED,
  their negatives and what is deprecated, `stated` is a sentence without such a word that says as a fact what a document has, so that one
  that has it otherwise is wrong for every reader. `host`: no sentence asks for it; a manual page, the kernel or every runtime refuses it,
  or it is a hint, as of a member that is reserved. What a specification says "can", "may" or "for instance" be so asks nothing.
- **By.** The word in the sentence, "stated" where it has none, or the reason for the level `host`. `tools/rules/sources.rows` has the
  sentence's version, heading and checksum.
- **Places.** `*` is each item of an array, `{}` each member of an object, `(a,b)` one of these names; `.` is the whole. Places of a
  set begin where the set stands, which the line below its title says.
- **Platforms.** A rule with none beside its place is for all. A configuration is for z/OS, Solaris or FreeBSD where it has the member of
  that platform, for Windows or a virtual machine where it has theirs and no `linux`, else for Linux: a Linux container on Windows has
  both `windows` and `linux`, and its paths are those of Linux.
- **Docker's formats.** A manifest or a list whose `mediaType` is Docker's (version 2, schema 2) is read as an image manifest or index, and none
  of the rules on media types is asked of it.
- **Peers.** T: `oci-runtime-tool validate`, S: the JSON schemas of the specifications, V: the Go code beside them, R: runc, C: crun. E: it is
  refused, "warns": it is printed.
"""


def cell(text):
    return text.replace("|", "\\|")


def platforms(items):
    return "" if items == PLATFORMS else " (POSIX)" if items == POSIX else f" ({', '.join(items)})"


def row(it, first):
    where = " ".join(f"`{place}`" for place in it.where.split())
    by = first[it.name].said() if it.name in first else "-"
    return f"| `{it.name}` | {where}{platforms(it.platforms)} | {it.level} | {cell(by)} | {it.section} | {cell('; '.join(it.wants))} | {cell(it.peers) or '-'} |\n"


def stands(model, group):
    """Where a set stands: the books or sets that include it, with the place."""
    out = []
    for other in model.groups.values():
        places = [(steps, name) for steps, name in other.included() if name == group.name]
        for steps, _ in places:
            place = "/".join({"item": "*", "each": "{}"}.get(step[0], step[-1]) for step in steps) or "."
            out.append(f"`{place}` of {other.name}")
    return ", ".join(out)


def counted(descriptions):
    """How many rules there are at each level."""
    names = {}
    for it in descriptions:
        names.setdefault(it.name, it.level)
    found = [sum(level == it for level in names.values()) for it in LEVELS]
    return found + [len(names)]


def table(model, file, first):
    out = f"\n## {TITLES[file]}\n"
    for group in model.files[file]:
        descriptions = group.descriptions()
        if group.kind == "set":
            out += f"\nThe set {group.name} stands at {stands(model, group)}.\n"
        if descriptions:
            out += "\n| rule | where | level | by | section | wanted | peers |\n|---|---|---|---|---|---|---|\n" + "".join(row(it, first) for it in descriptions)
    return out


def text(root, model, left_out, first):
    files = [it for it in TITLES if it in model.files]
    out = HEAD.replace("{versions}", model.versions) + "\n| document | must | stated | should | host | together |\n|---|---|---|---|---|---|\n"
    seen, every = set(), []
    for file in files:
        fresh = [it for group in model.files[file] for it in group.descriptions() if it.name not in seen]
        seen |= {it.name for it in fresh}
        every += fresh
        out += f"| {TITLES[file]} | {' | '.join(str(it) for it in counted(fresh))} |\n"
    out += f"| **all** | {' | '.join(f'**{it}**' for it in counted(every))} |\n"
    out += "".join(table(model, file, first) for file in files) + agreements.table(root, first)
    out += "\n## Left out\n\n| rule | reason |\n|---|---|\n" + "".join(f"| `{name}` | {cell(reason)} |\n" for name, reason in left_out)
    return out


def left_out(root):
    """The rules that are left out, with the reasons."""
    with open(os.path.join(root, "tools/rules/left_out.rows"), encoding="utf-8") as file:
        return [tuple(line.rstrip("\n").split(" | ", 1)) for line in file if line.strip() and not line.startswith("#")]


def run(root, model, check):
    """Writes the page, or says that it is not up to date. Returns the exit status."""
    path = os.path.join(root, "docs/RULES.md")
    made = text(root, model, left_out(root), sources.first_rows(sources.rows(root)))
    there = os.path.exists(path) and open(path, encoding="utf-8").read() == made
    if check:
        if not there:
            print("differs: docs/RULES.md")
        return 0 if there else 1
    if not there:
        with open(path, "w", encoding="utf-8") as file:
            file.write(made)
        print("docs/RULES.md")
    return 0
