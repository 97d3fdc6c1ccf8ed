"""Builds the Go programs. Debian's Go packages are for a GOPATH."""
import shutil

from benchmarks.measuring import OUT, SOURCES, TOP, called

GOPATH = f"{OUT}/gopath:/usr/share/gocode"


def build_go(folder):
    """Builds the program that calls the archive in the folder, and returns it."""
    ours = f"{OUT}/gopath/src/github.com/ciderglen"
    # (a copy: rt ci refuses symbolic links in the repository)
    shutil.copytree(f"{TOP}/bindings/go", f"{ours}/ciderglen-go", dirs_exist_ok=True)
    env = {"GO111MODULE": "off", "GOPATH": GOPATH, "CGO_CFLAGS": f"-I{TOP}/bindings/c", "CGO_LDFLAGS": f"-L{folder}"}
    called(["go", "build", "-o", f"{OUT}/go", f"{SOURCES}/go/main.go"], env=env)
    return f"{OUT}/go"


def build_go_peers():
    """Builds the program over Go's own packages alone, and returns it."""
    called(["go", "build", "-o", f"{OUT}/go_peers", f"{SOURCES}/go_peers/main.go"], env={"GO111MODULE": "off", "GOPATH": GOPATH})
    return f"{OUT}/go_peers"
