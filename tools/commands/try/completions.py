"""Tries the completions of `ciderglen` in share/ as one would: types the beginning of a command, then the tab key.

SHELL is bash, zsh or fish; all, where none is named. A shell that is missing is skipped, which is said; one that is named has to be there.
bash and zsh run on a terminal, and bash once more where = does not break words. fish says itself what it would complete a line to. In
reach is a program `ciderglen` that writes down its arguments, and lists three rules where it is asked for all, as the built one does.
It prints each line that becomes another than it should, and ends in `N passed, M failed`; the status is 0 if nothing failed.
"""
import os
import pty
import select
import shutil
import signal
import subprocess
import tempfile
import time

from repository import TOP

CHECKS = False
SHARE = f"{TOP}/share"
# what is typed before the tab key behind `ciderglen `, and the arguments that it becomes
CASES = [
    ("che", ["check"]),
    ("help veri", ["help", "verify"]),
    ("check --kind=mani", ["check", "--kind=manifest"]),
    ("check --kind mani", ["check", "--kind", "manifest"]),
    ("check -k mani", ["check", "-k", "manifest"]),
    ("check --kind=runtime-", ["check", "--kind=runtime-config"]),
    ("check --pla", ["check", "--platform"]),
    ("check --level st", ["check", "--level", "stated"]),
    ("check --unknown=d", ["check", "--unknown=deny"]),
    ("check --policy=ow", ["check", "--policy=own.toml"]),
    ("check --policy ow", ["check", "--policy", "own.toml"]),
    ("check ow", ["check", "own.toml"]),
    ("check with", ["check", "with space.json"]),
    ("check --quiet ow", ["check", "--quiet", "own.toml"]),
    ("fmt -o ow", ["fmt", "-o", "own.toml"]),
    ("verify --format=sa", ["verify", "--format=sarif"]),
    # zsh takes the slash of a folder away again
    ("verify ima", ["verify", "image"]),
    ("verify --strict imp", ["verify", "--strict", "imprint.json"]),
    # beside the folder there is a file of the same beginning
    ("pin --layout im", ["pin", "--layout", "image"]),
    ("rules layout-v", ["rules", "layout-version"]),
    ("rules image-c", ["rules", "image-config"]),
    ("schema feat", ["schema", "features"]),
    ("digest --alg", ["digest", "--algorithm"]),
    # nothing is known of a reference
    ("ref own", ["ref", "own"]),
]
PROGRAM = """#!/bin/sh
if [ "$*" = rules ]; then
    printf '%s\\n' 'an oci-layout file' '  layout-version [stated: image image-layout.md#oci-layout-file]: 1.0.0' \\
        '  layout-other [must: a section]: something' 'a descriptor' '  descriptor-empty [stated: a section]: something'
else
    for word in "$@"; do printf '%s\\0' "$word"; done > arguments.new
    mv arguments.new arguments
fi
"""
BASH = f". {SHARE}/bash-completion/completions/ciderglen"
STARTS = {
    "bash": (["bash", "--norc", "--noprofile", "-i"], BASH),
    "bash where = does not break words": (["bash", "--norc", "--noprofile", "-i"], f"COMP_WORDBREAKS=${{COMP_WORDBREAKS//=/}}; {BASH}"),
    "zsh": (["zsh", "-f", "-i"], f"fpath=({SHARE}/zsh/site-functions $fpath); autoload -Uz compinit; compinit -D -u"),
}
SECONDS, QUIET = 20, 0.15
READY = "it-is-ready"


class Terminal:
    """A shell on a terminal, in a folder."""

    def __init__(self, words, start, folder, environment):
        self.folder = folder
        self.process, self.end = pty.fork()
        if self.process == 0:
            os.chdir(folder)
            os.execvpe(words[0], words, environment)
        # (a quotation in the middle, so that the echo of the line is not taken for what it prints)
        self.type(f"{start}; echo it-is-'ready'\n")
        self.read_until(lambda text: READY in text)

    def type(self, text):
        os.write(self.end, text.encode())

    def read(self):
        """What the shell printed until it was quiet for a while."""
        text = ""
        while select.select([self.end], [], [], QUIET)[0]:
            text += os.read(self.end, 65536).decode("utf-8", "replace")
        return text

    def read_until(self, is_done):
        """Reads until what was read is enough."""
        text, last = "", time.monotonic() + SECONDS
        while not is_done(text) and time.monotonic() < last:
            text += self.read()

    def arguments(self, line):
        """The arguments that a line has once the tab key was pressed at its end; None where it was not run."""
        path = f"{self.folder}/arguments"
        if os.path.exists(path):
            os.remove(path)
        self.type(f"ciderglen {line}\t")
        self.read()
        self.type("\n")
        self.read_until(lambda _: os.path.exists(path))
        return arguments_in(path)

    def close(self):
        os.kill(self.process, signal.SIGKILL)
        os.close(self.end)
        os.waitpid(self.process, 0)


def arguments_in(path):
    if not os.path.exists(path):
        return None
    with open(path, encoding="utf-8") as file:
        return file.read().split("\0")[:-1]


def completed_by_fish(line, folder, environment):
    """The arguments that fish completes a line to; None where there are several ways."""
    begun = line.rpartition(" ")[0].split()
    script = f"source {SHARE}/fish/vendor_completions.d/ciderglen.fish; complete -C 'ciderglen {line}'"
    done = subprocess.run(["fish", "--no-config", "-c", script], cwd=folder, env=environment, capture_output=True, text=True, check=True)
    ways = [it.split("\t")[0].replace("\\ ", " ") for it in done.stdout.splitlines()]
    if not ways:
        return line.split()
    return [*begun, *ways] if len(ways) == 1 else None


def prepare(folder):
    """Makes the files and the program, and returns the environment."""
    os.makedirs(f"{folder}/bin")
    os.makedirs(f"{folder}/files/image")
    for name in ("own.toml", "with space.json", "imprint.json", "manifest"):
        with open(f"{folder}/files/{name}", "w", encoding="utf-8"):
            pass
    with open(f"{folder}/bin/ciderglen", "w", encoding="utf-8") as file:
        file.write(PROGRAM)
    os.chmod(f"{folder}/bin/ciderglen", 0o755)
    return {"PATH": f"{folder}/bin:/usr/bin:/bin", "HOME": folder, "TERM": "dumb", "LC_ALL": "C.UTF-8", "PS1": "@ ", "XDG_CONFIG_HOME": folder,
            "XDG_DATA_HOME": folder}


def tries(shell, folder, environment):
    """Each line with what it became in a shell."""
    if shell == "fish":
        yield from ((line, completed_by_fish(line, folder, environment)) for line, _ in CASES)
        return
    terminal = Terminal(*STARTS[shell], folder, environment)
    yield from ((line, terminal.arguments(line)) for line, _ in CASES)
    terminal.close()


def options_of(parser):
    parser.add_argument("shells", nargs="*", metavar="SHELL", choices=["bash", "zsh", "fish", []], help="bash, zsh or fish; all where none is named")


def run(asked):
    passed = failed = 0
    for shell in [it for it in [*STARTS, "fish"] if not asked.shells or it.split()[0] in asked.shells]:
        if not shutil.which(shell.split()[0]):
            print(f"{shell}: skipped, it is not there")
            failed += bool(asked.shells)
            continue
        with tempfile.TemporaryDirectory() as folder:
            environment = prepare(folder)
            for (line, wanted), (_, found) in zip(CASES, tries(shell, f"{folder}/files", environment)):
                if found and [it.rstrip("/") for it in found] == wanted:
                    passed += 1
                else:
                    failed += 1
                    print(f"FAILED {shell}: ciderglen {line}: became {found}, and not {wanted}")
    print(f"{passed} passed, {failed} failed")
    return 0 if failed == 0 else 1
