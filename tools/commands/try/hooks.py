"""Tries what other programs start: the hooks of .pre-commit-hooks.yaml, and the step of action.yml.

The hooks run by pre-commit (Debian: pre-commit) in a new repository of git, from a copy of this checkout's file; they are skipped where it
is not there. The step runs in bash as an action's does, with the inputs set and the others at their defaults. In place of `ciderglen` is a
program that writes down its arguments, and returns 1 where a file is called bad.json and 3 where there is none of its name.
It prints what did not do as it should, and ends in `N passed, M failed`; the status is 0 if nothing failed.
"""
import os
import re
import shutil
import subprocess
import tempfile
import textwrap

from repository import at, read

CHECKS = False
PROGRAM = """#!/bin/sh
{ for word in "$@"; do printf '%s\\0' "$word"; done; echo; } >> "$CALLS"
status=0
for word in "$@"; do
    case $word in
        *bad.json) echo "bad: $word"; status=1 ;;
        *.json) [ -e "$word" ] || exit 3 ;;
    esac
done
exit $status
"""
FILES = ("index.json", "in folder/config.json", "in folder/deep/config.json", "oci-layout", "bad.json", "other.txt")
# the inputs of the action, the arguments of each run of the program, and the status
ACTIONS = [
    ({"paths": "index.json"}, [["check", "--format=text", "--", "index.json"]], 0),
    ({"paths": "index.json\nbad.json"}, [["check", "--format=text", "--", "index.json", "bad.json"]], 1),
    ({"paths": "none.json"}, [["check", "--format=text", "--", "none.json"]], 3),
    ({"paths": "\n"}, [], 2),
    ({"paths": "in folder/*.json"}, [["check", "--format=text", "--", "in folder/config.json"]], 0),
    ({"paths": "**/config.json"}, [["check", "--format=text", "--", "in folder/config.json", "in folder/deep/config.json"]], 0),
    ({"paths": "$(touch made); touch made.json"}, [["check", "--format=text", "--", "$(touch made); touch made.json"]], 3),
    ({"paths": "index.json", "rules": "true", "level": "must", "policy": "own.toml", "format": "sarif", "args": "--quiet\n--kind=index\n"},
     [["check", "--format=sarif", "--rules", "--level=must", "--policy=own.toml", "--quiet", "--kind=index", "--", "index.json"]], 0),
    ({"paths": "in folder\nbad.json\nother", "command": "verify", "args": "--strict"},
     [["verify", "--format=text", "--strict", "--", it] for it in ("in folder", "bad.json", "other")], 1),
    ({"paths": "a\nb", "command": "verify", "output": "log"}, [], 2),
    ({"paths": "a", "program": "no-such-program"}, [], 127),
]


class Room:
    """A folder with files, and the program in reach."""

    def __init__(self, folder):
        self.folder, self.calls = f"{folder}/files", f"{folder}/calls"
        for name in FILES:
            os.makedirs(os.path.dirname(f"{self.folder}/{name}"), exist_ok=True)
            with open(f"{self.folder}/{name}", "w", encoding="utf-8"):
                pass
        os.makedirs(f"{folder}/bin")
        with open(f"{folder}/bin/ciderglen", "w", encoding="utf-8") as file:
            file.write(PROGRAM)
        os.chmod(f"{folder}/bin/ciderglen", 0o755)
        self.environment = {"PATH": f"{folder}/bin:/usr/bin:/bin", "HOME": folder, "LC_ALL": "C.UTF-8", "CALLS": self.calls,
                            "GIT_CONFIG_NOSYSTEM": "1", "PRE_COMMIT_HOME": f"{folder}/kept"}

    def run(self, words, **more):
        """What words print, and their status."""
        done = subprocess.run(words, cwd=self.folder, env={**self.environment, **more}, stdin=subprocess.DEVNULL, stdout=subprocess.PIPE,
                              stderr=subprocess.STDOUT, text=True, check=False)
        return done.stdout, done.returncode

    def called(self):
        """The arguments of each run of the program until now, which are forgotten then."""
        if not os.path.exists(self.calls):
            return []
        with open(self.calls, encoding="utf-8") as file:
            found = [line.split("\0")[:-1] for line in file.read().split("\n")[:-1]]
        os.remove(self.calls)
        return found


def step_of_action():
    """The script of the action's step, its environment by inputs, and the defaults of these."""
    text = read("action.yml")
    inputs, steps = text.split("\nruns:\n")
    defaults = {name: value.strip("'") for name, value in re.findall(r"(?m)^  (\w+):\n(?:    description: .*\n)(?:    required: true\n)?    default: (.*)$", inputs)}
    named = {variable: name for variable, name in re.findall(r"(?m)^ +(\w+): \$\{\{ inputs\.(\w+) \}\}$", steps)}
    return textwrap.dedent(steps.split("run: |\n")[1]), named, defaults


def try_actions(room):
    """Whether each case of the action did as it should, and what it was."""
    script, named, defaults = step_of_action()
    for inputs, calls, status in ACTIONS:
        values = {**defaults, **inputs}
        said, found = room.run(["bash", "--noprofile", "--norc", "-eo", "pipefail", "-c", script], **{it: values[name] for it, name in named.items()})
        made = room.called()
        yield (made, found) == (calls, status) and not os.path.exists(f"{room.folder}/made"), f"action {inputs}: {made}, status {found}: {said}"
    said, _ = room.run(["bash", "-eo", "pipefail", "-c", script], **{it: {**defaults, "paths": "bad.json", "output": "log"}[name] for it, name in named.items()})
    with open(f"{room.folder}/log", encoding="utf-8") as file:
        yield said == "" and file.read() == "bad: bad.json\n", f"action with output: {said}"


def try_hooks(room):
    """Whether each hook calls the program as it should, and what it was."""
    source = f"{room.folder}.source"
    os.makedirs(source)
    shutil.copy(at(".pre-commit-hooks.yaml"), source)
    git = ["git", "-c", "user.name=a", "-c", "user.email=a@b.example", "-c", "init.defaultBranch=main"]
    for words in (["init", "-q", source], ["-C", source, "add", "-A"], ["-C", source, "commit", "-qm", "hooks"], ["init", "-q", room.folder]):
        room.run([*git, *words])
    commit = room.run([*git, "-C", source, "rev-parse", "HEAD"])[0].strip()
    checked = ["in folder/config.json", "in folder/deep/config.json", "index.json", "oci-layout"]
    for hook, more, calls, status in (
        ("ciderglen-check", "", [["check", *checked]], 0),
        ("ciderglen-check", "args: [--rules]", [["check", "--rules", *checked]], 0),
        ("ciderglen-check", "files: bad", [["check", "bad.json"]], 1),
        ("ciderglen-fmt", "", [["fmt", "--check", *checked]], 0),
        ("ciderglen-fmt", "files: bad|^index", [["fmt", "--check", "bad.json", "index.json"]], 1),
        ("ciderglen-fmt", "{files: ^index, args: [--pretty, --kind=index]}", [["fmt", "--check", "--pretty", "--kind=index", "index.json"]], 0),
    ):
        options = f", {more.strip('{}')}" if more else ""
        with open(f"{room.folder}/.pre-commit-config.yaml", "w", encoding="utf-8") as file:
            file.write(f"repos: [{{repo: '{source}', rev: {commit}, hooks: [{{id: {hook}, require_serial: true{options}}}]}}]\n")
        room.run([*git, "add", "-A"])
        said, found = room.run(["pre-commit", "run", "--all-files"])
        made = room.called()
        # (pre-commit gives files in an order of its own)
        yield (sorted(map(sorted, made)), found) == (sorted(map(sorted, calls)), status), f"{hook} {more}: {made}, status {found}: {said}"


def run(_):
    passed = failed = 0
    for what in (try_actions, try_hooks):
        if what is try_hooks and not shutil.which("pre-commit"):
            print("pre-commit: skipped, it is not there")
            continue
        with tempfile.TemporaryDirectory() as folder:
            for good, told in what(Room(folder)):
                passed, failed = passed + good, failed + (not good)
                if not good:
                    print(f"FAILED {told}")
    print(f"{passed} passed, {failed} failed")
    return 0 if failed == 0 else 1
