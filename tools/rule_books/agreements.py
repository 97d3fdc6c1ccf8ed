"""What the documents of an image agree on, tools/rules/agreements.rows: a table of docs/RULES.md, and the same in crates/oci_agreement."""
import glob
import os
import re

TOLD = re.compile(r'name: "(.*?)",\s*level: Level::(\w+),\s*section: "(.*?)",\s*wanted: "(.*?)",')
HEAD = """
## Documents that belong together

What the documents of one image say of each other: the descriptor that leads to its manifest, the manifest, and its configuration; and what
the descriptors of one content say of it. Nothing is asked where one of them does not say it. Those on layers are asked where the type of
the configuration is that of an image's and each layer is one of a filesystem, those on the platform and on labels where the former is so.
The variant of an `arm64` that says none is `v8` (image-index.md, "Platform Variants"), and digests by different algorithms are not compared.
`ciderglen verify` asks what the documents of one image say of each other, of each image in a layout; what the descriptors of one content say,
the calls of `oci_agreement` alone.

| agreement | shown | level | by | section | wanted |
|---|---|---|---|---|---|
"""


class Agreement:
    """An agreement, as a rule is told."""

    def __init__(self, line):
        self.name, self.level, self.section, self.shown, self.wanted = (it.strip() for it in line.split(" | "))

    def told(self):
        return self.name, self.level, self.section, self.wanted


def rows(root):
    with open(os.path.join(root, "tools/rules/agreements.rows"), encoding="utf-8") as file:
        return [Agreement(line.rstrip("\n")) for line in file if line.strip() and not line.startswith("#")]


def rules(root):
    """The agreements by their names, as a model has its rules."""
    return {it.name: [it] for it in rows(root)}


def differing(root):
    """The agreements that are told otherwise in the code, or there alone, a line each."""
    told = set()
    for path in glob.glob(os.path.join(glob.escape(root), "crates/oci_agreement/src/*.rt")):
        with open(path, encoding="utf-8") as file:
            told |= {(name, level.lower(), section, wanted) for name, level, section, wanted in TOLD.findall(file.read())}
    listed = {it.told() for it in rows(root)}
    return [f"{it[0]}: not so in agreements.rows and crates/oci_agreement alike" for it in sorted(told ^ listed)]


def table(root, first):
    """The section of docs/RULES.md."""
    out = HEAD
    for it in rows(root):
        by = first[it.name].said() if it.name in first else "-"
        out += f"| `{it.name}` | {it.shown} | {it.level} | {by} | {it.section} | {it.wanted} |\n"
    return out
