"""Tries `tools/deb` with stand-ins for the programs and the library, so that nothing has to be proved for it.

It lays out what `tools/install` would install, with programs and a library of C that do nothing, makes the packages twice, and unpacks
them: both times they have the same bytes and nothing against them by lintian; each file of share/ and bindings/ is in its place; C is
compiled by pkg-config, Go and Rust from the folders of their packages where the compilers are there, and Python loads the library; manual
pages and completions are read without a complaint. It wants Debian's dpkg-dev, gcc, pkg-config, man-db and lintian, and no root.
It prints what failed, and ends in `N passed, M failed`; the status is 0 if nothing failed.
"""
import glob
import os
import re
import shutil
import subprocess
import sys
import tempfile

from repository import at, read

CHECKS = False
PROGRAM = '#include <stdio.h>\nint main(void) { puts("ciderglen 0.1.0"); return 0; }\n'
C = '#include <ciderglen.h>\nint main(void) { return ciderglen_interface() == CIDERGLEN_INTERFACE ? 0 : 1; }\n'
GO = 'package main\n\nimport "github.com/ciderglen/ciderglen-go"\n\nfunc main() {\n\tif _, err := ciderglen.Normalize(ciderglen.Layout, nil); ' \
    'err != ciderglen.ErrOutOfMemory {\n\t\tpanic(err)\n\t}\n}\n'
RUST = "fn main() {\n    assert_eq!(ciderglen::normalize(ciderglen::Kind::Layout, b\"\"), Err(ciderglen::Error::OutOfMemory));\n}\n"
PYTHON = "import ciderglen\ntry:\n    ciderglen.normalize(ciderglen.Kind.LAYOUT, b'')\nexcept MemoryError:\n    raise SystemExit(0)\nraise SystemExit(1)\n"
CARGO = '[package]\nname = "try"\nversion = "0.1.0"\nedition = "2021"\n\n[dependencies]\nciderglen = "0.1"\n'
TOOLS = ("dpkg-deb", "dpkg-shlibdeps", "cc", "pkg-config", "man", "lintian", "rt")
LINES_SHOWN = 15


class Tries:
    """What was tried, counted."""

    def __init__(self):
        self.passed = self.failed = 0

    def check(self, what, good, said=""):
        self.passed, self.failed = self.passed + bool(good), self.failed + (not good)
        if not good:
            print(f"FAILED {what}\n" + "\n".join(f"    {line}" for line in said.strip().split("\n")[-LINES_SHOWN:]))

    def run(self, what, words, folder, silent=False, **more):
        """Runs words: they have to end with 0, and to print nothing where that is asked."""
        done = subprocess.run(words, cwd=folder, env={**os.environ, **more}, stdin=subprocess.DEVNULL, stdout=subprocess.PIPE,
                              stderr=subprocess.STDOUT, text=True, check=False)
        self.check(what, done.returncode == 0 and not (silent and done.stdout), done.stdout)
        return done.stdout


def put(path, text):
    os.makedirs(os.path.dirname(path), exist_ok=True)
    with open(path, "w", encoding="utf-8") as file:
        file.write(text)


def stubs():
    """A library of C with each function of the header, which returns that memory ran out."""
    prototypes = re.findall(r"(?m)^(uint32_t (ciderglen_\w+)\([^;{]*\));", read("bindings/c/ciderglen.h"))
    bodies = [f"{text} {{ return {'CIDERGLEN_INTERFACE' if name == 'ciderglen_interface' else 'CIDERGLEN_OUT_OF_MEMORY'}; }}\n" for text, name in prototypes]
    return "#include <ciderglen.h>\n" + "".join(bodies)


def stage(folder, tries):
    """Lays out what tools/install installs, with stand-ins, below FOLDER/staged."""
    put(f"{folder}/program.c", PROGRAM)
    put(f"{folder}/library.c", stubs())
    shutil.copytree(at("bindings"), f"{folder}/build/bindings", ignore=shutil.ignore_patterns("go", "python", "rust"))
    shutil.copy(at("VERSION"), f"{folder}/build")
    shutil.copytree(at("share"), f"{folder}/staged/usr/share")
    os.makedirs(f"{folder}/staged/usr/bin")
    for name in ("ciderglen", "ocidoc"):
        tries.run(f"compile {name}", ["cc", "-O2", "-o", f"{folder}/staged/usr/bin/{name}", "program.c"], folder)
    tries.run("compile the library", ["cc", "-O2", "-fPIC", "-w", "-I", at("bindings/c"), "-c", "library.c"], folder)
    tries.run("archive the library", ["ar", "rc", "library.a", "library.o"], folder)
    tries.run("bindings/build --archive", ["bindings/build", "--archive", f"{folder}/library.a"], f"{folder}/build")
    tries.run("bindings/build install", ["bindings/build", "install"], f"{folder}/build", DESTDIR=f"{folder}/staged", PREFIX="/usr")


def make(folder, tries):
    """Makes the packages twice and unpacks them below FOLDER/root."""
    for out in ("first", "second"):
        tries.run(f"tools/deb, {out}", [at("tools/deb"), "--staged", f"{folder}/staged", "--out", f"{folder}/{out}"], folder)
    names = sorted(os.listdir(f"{folder}/first"))
    tries.check("six packages", len(names) == 6, str(names))
    for name in names:
        tries.run(f"{name}: the same bytes", ["cmp", f"first/{name}", f"second/{name}"], folder)
        tries.run(f"{name}: unpack", ["dpkg-deb", "-x", f"first/{name}", "root"], folder)


def try_pages(root, tries):
    """Manual pages and completions, which are those of share/."""
    pages = sorted(glob.glob(f"{root}/usr/share/man/man*/*.gz"))
    tries.check("three manual pages", [os.path.basename(it) for it in pages] == ["ciderglen.1.gz", "ocidoc.1.gz", "ciderglen.3.gz"], str(pages))
    for page in pages:
        tries.run(os.path.basename(page), ["sh", "-c", f"man --warnings -l {page} 2>&1 > /dev/null"], root, silent=True, LC_ALL="C.UTF-8", MANROFFSEQ="")
    for source, to in (("bash-completion/completions/ciderglen", "bash-completion/completions/ciderglen"),
                       ("zsh/site-functions/_ciderglen", "zsh/vendor-completions/_ciderglen"),
                       ("fish/vendor_completions.d/ciderglen.fish", "fish/vendor_completions.d/ciderglen.fish")):
        tries.run(to, ["cmp", at(f"share/{source}"), f"{root}/usr/share/{to}"], root)
    tries.run("completions of bash", ["bash", "-n", f"{root}/usr/share/bash-completion/completions/ciderglen"], root)


def try_languages(root, folder, tries):
    """Programs over the library as it is unpacked: C by pkg-config, Python, and Go and Rust where their compilers are there."""
    library, = (os.path.dirname(path) for path in glob.glob(f"{root}/usr/lib/*/libciderglen.a"))
    put(f"{folder}/try/c.c", C)
    found = {"PKG_CONFIG_LIBDIR": f"{library}/pkgconfig", "PKG_CONFIG_SYSROOT_DIR": root, "PKG_CONFIG_ALLOW_SYSTEM_CFLAGS": "1", "PKG_CONFIG_ALLOW_SYSTEM_LIBS": "1"}
    tries.run("C", ["sh", "-c", "cc -std=c99 -Wall -Wextra -Werror c.c $(pkg-config --cflags --libs ciderglen) -o c && ./c"], f"{folder}/try", LD_LIBRARY_PATH=library, **found)
    tries.run("Python", ["python3", "-c", PYTHON], folder, CIDERGLEN_LIBRARY=f"{library}/libciderglen.so.0", PYTHONPATH=f"{root}/usr/lib/python3/dist-packages")
    if shutil.which("go"):
        put(f"{folder}/go/src/try/main.go", GO)
        tries.run("Go", ["go", "run", "main.go"], f"{folder}/go/src/try", GO111MODULE="off", GOPATH=f"{folder}/go:{root}/usr/share/gocode",
                  GOCACHE=f"{folder}/kept", CGO_CFLAGS=f"-I{root}/usr/include", CGO_LDFLAGS=f"-L{library}")
    if shutil.which("cargo"):
        put(f"{folder}/rust/Cargo.toml", CARGO)
        put(f"{folder}/rust/src/main.rs", RUST)
        put(f"{folder}/rust/.cargo/config.toml", f'[source.crates-io]\nreplace-with = "unpacked"\n\n[source.unpacked]\ndirectory = "{root}/usr/share/cargo/registry"\n')
        tries.run("Rust", ["cargo", "run", "-q", "--offline"], f"{folder}/rust", CIDERGLEN_LIB_DIR=library)


def run(_):
    missing = [it for it in TOOLS if not shutil.which(it)]
    if missing:
        sys.exit(f"not there: {', '.join(missing)}")
    tries = Tries()
    with tempfile.TemporaryDirectory() as folder:
        stage(folder, tries)
        make(folder, tries)
        root = f"{folder}/root"
        try_pages(root, tries)
        try_languages(root, folder, tries)
    print(f"{tries.passed} passed, {tries.failed} failed")
    return 0 if tries.failed == 0 else 1
