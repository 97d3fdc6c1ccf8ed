"""The machine: what is installed on it, and what it is."""
import os
import re
import shutil
import subprocess

from benchmarks.measuring import Missing, called, said

# the Debian packages that have these programs
PROGRAMS = {"go": "golang-go", "jq": "jq", "valgrind": "valgrind", "cargo": "cargo", "cc": "gcc", "umoci": "umoci", "skopeo": "skopeo",
            "buildah": "buildah", "runc": "runc", "crun": "crun"}
CRATES = ("serde", "serde-json", "serde-derive", "regex+default", "const-format", "derive-builder", "getset", "thiserror", "strum",
          "strum-macros", "once-cell")
GO = ("opencontainers-image-spec", "opencontainers-specs", "opencontainers-go-digest", "opencontainers-runc", "docker-distribution")
LIBRARIES = (*(f"librust-{name}-dev" for name in CRATES), *(f"golang-github-{name}-dev" for name in GO))
VERSIONS = (("rustc", ["rustc", "--version"]), ("Go", ["go", "version"]), ("jq", ["jq", "--version"]), ("valgrind", ["valgrind", "--version"]))


def is_installed(package):
    """Whether a Debian package is installed."""
    done = subprocess.run(["dpkg-query", "-W", "-f", "${db:Status-Status}", package], capture_output=True, text=True, check=False)
    return done.stdout == "installed"


def install():
    """Installs the packages that are missing, with those that they need."""
    missing = [package for program, package in PROGRAMS.items() if not shutil.which(program)]
    if shutil.which("dpkg-query"):
        missing += [package for package in LIBRARIES if not is_installed(package)]
    if not missing:
        return
    if not shutil.which("apt-get") or os.geteuid():
        said(f"these packages of Debian are missing, and only root can install them: {' '.join(missing)}")
        return
    said(f"installing {' '.join(missing)}")
    env = {"DEBIAN_FRONTEND": "noninteractive"}
    try:
        called(["apt-get", "update", "-qq"], env=env)
        called(["apt-get", "install", "-y", "-qq", "--no-install-recommends", *missing], env=env)
    except Missing as fault:
        said(f"not installed: {fault}")


def read(path, pattern):
    """What a pattern finds in a file."""
    with open(path, encoding="utf-8") as file:
        found = re.search(pattern, file.read(), re.MULTILINE)
    return found[1] if found else ""


def version(name, words):
    """A program's version, if it is there."""
    if not shutil.which(words[0]):
        return []
    return [f"{name} {re.search(r'[0-9]+[.][0-9.]*[0-9]', called(words))[0]}"]


def described(rounds):
    """The lines on the machine."""
    processor = read("/proc/cpuinfo", r"^model name\s*: (.*)$") or os.uname().machine
    memory = int(read("/proc/meminfo", r"^MemTotal: *([0-9]+)")) / 1024 ** 2
    system = read("/etc/os-release", r'^PRETTY_NAME="?([^"\n]*)') or os.uname().sysname
    versions = [it for name, words in VERSIONS for it in version(name, words)]
    return [f"Measured on: {' '.join(processor.split())}, {os.cpu_count()} processors, {memory:.0f} GiB of memory; {system}, "
            f"{os.uname().sysname} {os.uname().release}; {', '.join(versions)}. Each time is the least of {rounds} rounds."]
