"""The definitions that each facade re-exports: those that its public contracts cite.

It adds to specs/Lib.antt of each facade the modules of definitions that its public clauses cite and it lacks; with --check it lists them.
It also lists the crates that a crate's sources or proofs name and that its line in crates.txt lacks; the status is 1 if there are any.

A facade is a crate that re-exports types of other crates of this repository. Its public clauses are those of the public calls of the
types that it names, its own and the re-exported ones. A caller who lists the facade alone in crates.txt can then cite every word of
a contract as `Rattle.FACADE.specs.MODULE`.
"""
import glob
import os
import re

from repository import crates, folder_of, read, write

FACADES = ["oci_cgroups", "oci_linux", "oci_process", "oci_platforms", "oci_features", "oci_runtime", "oci_image", "oci_distribution",
           "oci_text", "oci_reference", "oci_spec"]
USE = re.compile(r"ghost use Rattle\.(oci_\w+)\.specs\.([\w.]+?)\.\{([^}]*)\};")
CALL = re.compile(r"(?m)^ *pub fn \w+.*?\n *\{\n", re.S)


def sources(crate):
    """The texts of a crate's sources."""
    return [read(path) for path in sorted(glob.glob(f"{folder_of(crate)}/src/**/*.rt", recursive=True))]


def reexports(text):
    """The items that a file re-exports: (crate or '' for its own, name)."""
    found = []
    for path, names, name in re.findall(r"pub use ([\w:]+?)::(?:\{([^}]*)\}|(\w+));", text):
        crate = path.split("::")[0]
        crate = crate if os.path.isdir(folder_of(crate)) else ""
        found += [(crate, it.strip().split(" ")[0]) for it in (names or name).split(",") if it.strip()]
    return found


def home(crate, name, seen=()):
    """The crate in which a re-exported item is defined."""
    for text in sources(crate):
        if re.search(rf"pub (?:struct|enum|trait|fn|const) {name}\b", text):
            return crate
    for other, it in reexports("".join(sources(crate))):
        if it == name and other and other not in seen:
            return home(other, name, (*seen, crate))
    return None


def cited(crate, name):
    """The modules that the public clauses of an item cite."""
    modules = set()
    for text in sources(crate):
        if not re.search(rf"(?:pub (?:struct|enum|trait|fn) {name}\b|impl(?:<[^>]*>)? {name}\b)", text):
            continue
        words = {}
        for lib, module, names in USE.findall(text):
            for it in names.split(","):
                words[it.strip().split(" as ")[-1].strip()] = (lib, module)
        clauses = " ".join(re.findall(r"(?:requires|ensures)\*?[^{]*\{(.*)\}", "\n".join(CALL.findall(text))))
        tokens = set(re.findall(r"[A-Za-z_][\w]*", clauses))
        modules |= {where for word, where in words.items() if word in tokens and not where[1].startswith(("contracts", "declared"))}
    return modules


def library(facade):
    return f"crates/{facade}/specs/Lib.antt"


def lacking(facade):
    """The lines that a facade's specs/Lib.antt lacks."""
    text = "".join(sources(facade))
    wanted = set()
    for crate, name in {*reexports(text), *(("", n) for n in re.findall(r"pub (?:struct|enum) (\w+)", text))}:
        at = home(crate or facade, name)
        if at:
            wanted |= cited(at, name)
    lib = read(library(facade))
    has = {tuple(it) for it in re.findall(r"pub use Rattle\.(oci_\w+)\.specs\.([\w.]+)", lib)}
    taken = set(re.findall(r"pub mod (\w+)", lib)) | {it.split(" as ")[-1].split(".")[-1] for it in re.findall(r"pub use (\S+(?: as \S+)?)", lib)}
    lines = []
    for crate, module in sorted(wanted - has):
        if crate == facade:
            continue
        name = module.split(".")[-1]
        shown = f"pub use Rattle.{crate}.specs.{module}"
        if name in taken:
            name = name + ("Shape" if crate == "oci_shapes" else crate.partition("_")[2].title().replace("_", ""))
            shown += f" as {name}"
        taken.add(name)
        lines.append(shown)
    return lines


def unlisted():
    """The crates that each crate names without listing them in crates.txt."""
    listed, found = crates(), []
    for crate in listed:
        named = set()
        for part in ("src", "specs", "proofs"):
            for path in glob.glob(f"{folder_of(crate)}/{part}/**/*.*t*", recursive=True):
                named |= set(re.findall(r"Rattle\.(oci_\w+)\.|^\s*(?:pub )?use (oci_\w+)::", read(path), re.M))
        modules = {os.path.splitext(os.path.basename(it))[0] for it in glob.glob(f"{folder_of(crate)}/src/*.rt")}
        names = {it for pair in named for it in pair if it in listed and it not in modules}
        found += [f"{crate} names {it}, and crates.txt does not say so" for it in sorted(names - {crate, *listed[crate].uses})]
    return found


def run(options):
    faults = unlisted()
    print("".join(f"{it}\n" for it in faults), end="")
    for facade in FACADES:
        lines = lacking(facade)
        if not lines:
            continue
        print(f"{facade} lacks:\n  " + "\n  ".join(lines))
        if options.check:
            faults += lines
        else:
            write(library(facade), "\n".join(sorted({*filter(None, read(library(facade)).split("\n")), *lines})) + "\n")
    return 1 if faults else 0
