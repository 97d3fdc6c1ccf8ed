"""Enums, closed and extensible: their model, read from tools/names/*.names, and all their files."""
import os

from generator import integers
from generator.name_source import source
from generator.name_specs import shown, spec, unspelled
from generator.names_model import read
from generator.open_source import open_source
from generator.open_specs import open_files
from generator.output import module_list
from generator.text import marked


def files(n):
    """The files of one enum, by their paths in its crate."""
    if n.is_open:
        return {f"src/{n.word}.rt": open_source(n)} | open_files(n)
    out = {f"src/{n.word}.rt": source(n), f"specs/{n.name}.antt": spec(n)}
    if n.refusal and n.shows():
        out[f"proofs/Unspelled{n.name}.antt"] = unspelled(n)
    if "from_shown" in n.marks:
        out[f"proofs/Shown{n.name}.antt"] = shown(n)
    return out


def all_files(paths, root):
    """The files of all names of the descriptions, and the lists of their crates' specifications and proofs."""
    out, sources = {}, {}
    for path in paths:
        crate, names, integer_types = read(path)
        source = "tools/names/" + os.path.basename(path)
        sources.setdefault(crate, []).append(source)
        made = {f"crates/{crate}/{at}": text for n in names for at, text in files(n).items()}
        if integer_types:
            made[f"crates/{crate}/src/number.rt"] = integers.source(integer_types)
        out.update(marked(made, "names", source))
    lists = {}
    for crate, of in sources.items():
        for folder in ("specs", "proofs"):
            at = f"crates/{crate}/{folder}"
            if any(os.path.dirname(it) == at for it in out):
                source = of[0] if len(of) == 1 else "tools/names"
                lists.update(marked({f"{at}/Lib.antt": module_list(root, at, out)}, "names", source))
    return out | lists
