"""The programs that are measured: those of the repository, which `rt run` builds, and the peers, which are built here."""
import functools
import os
import shutil

from benchmarks.go_program import build_go, build_go_peers
from benchmarks.measuring import OUT, SOURCES, TOP, Missing, called, said
from benchmarks.upstream import build_crate

# the ways from a document's bytes to its text that `oci_tests bench` takes
LANES = ("bytes", "value", "tape")
# those that the crate takes: their short names, and the endings of the calls
CRATE = {"T": "", "Ts": "_ordered", "V": "_value"}
GO, JQ = "Go", "jq"


def repeated(path, count):
    """A file in which a document stands so often, for jq."""
    with open(path, "rb") as file:
        text = file.read() + b"\n"
    to = f"{OUT}/jq_{count}"
    if not os.path.exists(to) or os.path.getsize(to) != len(text) * count:
        with open(to, "wb") as file:
            for _ in range(count):
                file.write(text)
    return to


def peer(build):
    """A peer that is built when it is first asked for; None, and said once, if it cannot be."""
    @functools.wraps(build)
    def built(it):
        try:
            return build(it)
        except Missing as fault:
            said(f"left out: {fault}")
            return None
    return functools.cached_property(built)


class Programs:
    """The programs, found or built when they are first asked for."""

    def __init__(self, given, upstream):
        self.given, self.upstream = given, upstream

    def built(self, name):
        """A program of the repository."""
        path = self.given.get(name, f"{TOP}/crates/{name}/out/{name}")
        if not os.path.exists(path):
            raise Missing(f"`{name}` is not built (`cd crates/{name} && rt run < /dev/null`)")
        return os.path.abspath(path)

    @peer
    def crate(self):
        """The crate's program."""
        if not self.upstream:
            raise Missing("the crate `oci-spec` (`--crate UPSTREAM`)")
        return build_crate(self.upstream)

    @peer
    def go_peers(self):
        """The program over Go's own packages."""
        if not shutil.which("go"):
            raise Missing("Go")
        return build_go_peers()

    @peer
    def jq(self):
        """jq, if it is installed."""
        if not shutil.which("jq"):
            raise Missing("jq")
        return "jq"

    def way(self, name, kind, path):
        """The command that takes a document one way; None if its program is not there."""
        if name in LANES:
            tests = self.built("oci_tests")
            return lambda count: [tests, "bench", kind, path, str(count), name]
        if name in CRATE:
            crate = self.crate
            return crate and (lambda count: [crate, kind + CRATE[name], path, str(count)])
        if name == JQ:
            return self.jq and (lambda count: ["jq", "-cS", ".", repeated(path, count)])
        go = self.go_peers
        return go and (lambda count: [go, kind, path, str(count)])

    def bindings(self):
        """The programs that call the archive for C, from C, Rust and Go, by short names."""
        folder = os.path.dirname(self.archive())
        os.makedirs(OUT, exist_ok=True)
        called(["cc", "-O2", "-Wall", "-Wextra", f"-I{TOP}/bindings/c", f"{SOURCES}/bench.c", self.archive(), "-o", f"{OUT}/c"])
        env = {"CIDERGLEN_LIB_DIR": folder, "CARGO_TARGET_DIR": f"{OUT}/rust_target"}
        called(["cargo", "build", "--offline", "--release", "--quiet"], cwd=f"{SOURCES}/rust", env=env)
        return {"c": f"{OUT}/c", "rust": f"{OUT}/rust_target/release/bench", "go": build_go(folder) if shutil.which("go") else None}

    def archive(self):
        """The archive for C."""
        path = os.path.abspath(self.given.get("archive", f"{TOP}/out/bindings/libciderglen.a"))
        if not os.path.exists(path):
            raise Missing("the archive for C is not built (`bindings/build`)")
        return path
