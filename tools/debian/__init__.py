"""What `tools/deb` makes: the packages, with the files of each."""
import fnmatch

DOCUMENTS = "JSON documents of the Open Container Initiative: image manifests, indexes and configurations, registry replies, runtime configurations, " \
    "digests and image references"
PROVED = "Each of its functions is proved: what a call returns is stated by a contract, and true of every input; no call panics or reads outside its memory."
SHARED = "usr/lib/*/libciderglen.so.*"
GO = "usr/share/gocode/src/github.com/ciderglen/ciderglen-go"
# maintainer scripts as dh_python3 writes them
COMPILE = "#!/bin/sh\nset -e\nif [ \"$1\" = configure ] && command -v py3compile > /dev/null 2>&1; then\n    py3compile -p python3-ciderglen\nfi\n"
CLEAN = "#!/bin/sh\nset -e\nif command -v py3clean > /dev/null 2>&1; then\n    py3clean -p python3-ciderglen\nelse\n" \
    "    dpkg -L python3-ciderglen | sed -n 's/\\.py$/.pyc/p' | xargs -r rm -f --\nfi\n"


class Package:
    """A package: its fields in `control`, the patterns of its files, and its other control files by their names."""

    def __init__(self, name, section, summary, text, patterns, depends="", is_native=True, control=None, **fields):
        self.name, self.section, self.summary, self.text, self.patterns = name, section, summary, text, patterns
        self.depends, self.is_native, self.control, self.fields = depends, is_native, control or {}, fields

    def has(self, path):
        return any(fnmatch.fnmatchcase(path, pattern) for pattern in self.patterns)


def packages(major):
    """The packages; `major` is the first number of the version, which the shared library's name has."""
    library = f"libciderglen{major}"
    return [
        Package("ciderglen", "utils", "checks, formats and compares documents of the Open Container Initiative",
                [f"The program ciderglen reads {DOCUMENTS}. It lists what is wrong with them, writes their canonical form, verifies image layouts with "
                 "their contents, and shows differences. The program ocidoc does some of it for scripts.", PROVED],
                ["usr/bin/*", "usr/share/man/man1/*", "usr/share/bash-completion/*", "usr/share/zsh/*", "usr/share/fish/*"],
                **{"Multi-Arch": "foreign"}),
        Package(library, "libs", "documents of the Open Container Initiative - shared library",
                [f"A library for C that validates and normalizes {DOCUMENTS}.", PROVED], [SHARED],
                control={"triggers": "activate-noawait ldconfig\n", "shlibs": f"libciderglen {major} {library} (>= {{version}})\n"},
                **{"Multi-Arch": "same"}),
        Package("libciderglen-dev", "libdevel", "documents of the Open Container Initiative - files for development",
                ["The header of the library, its archive, a file for pkg-config and a manual page.", PROVED],
                ["usr/include/*", "usr/lib/*/libciderglen.a", "usr/lib/*/libciderglen.so", "usr/lib/*/pkgconfig/*", "usr/share/man/man3/*"],
                f"{library} (= {{full}})", **{"Multi-Arch": "same"}),
        Package("golang-github-ciderglen-ciderglen-go-dev", "golang", "documents of the Open Container Initiative - package for Go",
                [f"A package with cgo over the archive of libciderglen-dev, which validates and normalizes {DOCUMENTS}."], [f"{GO}/*"],
                "libciderglen-dev (>= {version})", is_native=False),
        Package("python3-ciderglen", "python", "documents of the Open Container Initiative - module for Python",
                [f"A module that validates and normalizes {DOCUMENTS}. It calls the shared library by ctypes."], ["usr/lib/python3/*"],
                f"python3:any, {library} (>= {{version}})", is_native=False, control={"postinst": COMPILE, "prerm": CLEAN}),
        Package("librust-ciderglen-dev", "rust", "documents of the Open Container Initiative - crates for Rust",
                [f"The crates ciderglen and ciderglen-sys, which link the archive of libciderglen-dev. They validate and normalize {DOCUMENTS}."],
                ["usr/share/cargo/registry/*"], "libciderglen-dev (>= {version}), pkgconf | pkg-config", is_native=False,
                Provides="librust-ciderglen-sys-dev (= {full})"),
    ]
