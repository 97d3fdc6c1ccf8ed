"""The version of the project, from the file VERSION, wherever a package or a program says it.

It writes it into the sources and packages of PLACES. The pages of the command line and the sessions say what the program prints, so they
follow: `tools/gen cli_pages` and `tools/sessions` show where they do not.
"""
import glob
import re
import sys

from repository import TOP, brought_up_to_date, read

FILE = "VERSION"
# what is before the version and behind it, in each file
PLACES = {
    "crates/*/src/**/sarif.rt": [('pub const VERSION: &str = "', '"')],
    "bindings/python/pyproject.toml": [('\nversion = "', '"')],
    "bindings/rust/Cargo.toml": [('\nversion = "', '"'), ('path = "ciderglen-sys", version = "', '"')],
    "bindings/rust/ciderglen-sys/Cargo.toml": [('\nversion = "', '"')],
    "bindings/go/README.md": [("ciderglen-go@v", " ")],
}


def files():
    """The files that say the version, each with its places."""
    found = {}
    for pattern, places in PLACES.items():
        paths = glob.glob(pattern, root_dir=TOP, recursive=True) or sys.exit(f"there is no {pattern}, which has to say the version")
        found |= {path: places for path in paths}
    return found


def with_version(path, places, version):
    """The text of a file, with the version in its places."""
    text = read(path)
    for before, behind in places:
        text, count = re.subn(rf"({re.escape(before)})\d+\.\d+\.\d+(?={re.escape(behind)})", rf"\g<1>{version}", text)
        if not count:
            sys.exit(f"{path} does not say the version as tools/gen version knows it: {before.strip()}..")
    return text


def run(options):
    version = read(FILE).strip()
    if not re.fullmatch(r"\d+\.\d+\.\d+", version):
        sys.exit(f"{FILE} is not a version of three numbers: {version}")
    return brought_up_to_date({path: with_version(path, places, version) for path, places in files().items()}, options.check)
