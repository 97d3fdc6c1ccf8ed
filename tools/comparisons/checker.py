"""What breaks rules in documents, by the project's own programs, which answer many documents in one run."""
import json
import os
import re
import subprocess
import tempfile

from repository import folder_of, program_of

PROGRAM = "oci_tests"
LINE = re.compile(r"(.*): ([a-z0-9-]+) \((must|stated|should|host), (.*?)\)(?:: .*)?")


class Found:
    """A part that breaks a rule."""

    def __init__(self, pointer, rule, level, section):
        self.pointer, self.rule, self.level, self.section = pointer, rule, level, section

    def __repr__(self):
        return f"{self.pointer}: {self.rule} ({self.level}, {self.section})"


def check(documents, program=""):
    """What breaks rules in each (kind, platform, text) of a list; the text is one line of JSON. Without a program it is the one that
    `rt run` built, or else what `rt try` compiles, which may print 1 MiB: what some thousand documents break."""
    if not documents:
        return []
    built = program_of(PROGRAM)
    program = program or (built if os.path.exists(built) else "")
    lines = "".join(f"{kind} {platform or '-'} {' '.join(text.split(chr(10)))}\n" for kind, platform, text in documents)
    words = [os.path.abspath(program), "list"] if program else ["rt", "try", "--seconds", "3000", "--", "list"]
    with tempfile.TemporaryFile("w+", encoding="utf-8") as given:
        given.write(lines)
        given.seek(0)
        done = subprocess.run(words, cwd=folder_of(PROGRAM), stdin=given, capture_output=True, check=False)
    answers, last = [], []
    for line in done.stdout.decode("utf-8").split("\n")[:-1]:
        if line:
            last.append(found(line))
        else:
            answers.append(last)
            last = []
    if len(answers) != len(documents):
        raise SystemExit(f"{len(documents)} documents, {len(answers)} answers: {done.stderr.decode('utf-8')[-2000:]}")
    return answers


def found(line):
    parts = LINE.fullmatch(line)
    if not parts:
        raise SystemExit(f"no line of a rule: {line}")
    return Found(*parts.groups())


def examined(documents, program, folder):
    """What `ciderglen check` finds in each (kind, text) of a list, of any level, and members that it does not know. It reads the texts from
    NUMBER.json in the folder, as they are."""
    answers, numbers = [[] for _ in documents], {}
    for number, (kind, text) in enumerate(documents):
        numbers.setdefault(kind, []).append(number)
        with open(os.path.join(folder, f"{number}.json"), "w", encoding="utf-8") as file:
            file.write(text)
    for kind, each in sorted(numbers.items()):
        words = [os.path.abspath(program), "check", "--kind", kind, "--rules", "--level", "host", "--unknown", "warn", "--format", "json"]
        done = subprocess.run([*words, *(f"{it}.json" for it in each)], cwd=folder, capture_output=True, text=True, check=False)
        if done.returncode not in (0, 1):
            raise SystemExit(f"{' '.join(words)}: status {done.returncode}: {done.stderr[-500:]}")
        for line in done.stdout.splitlines():
            finding = json.loads(line)
            answers[int(finding["file"].removesuffix(".json"))].append(finding)
    return answers
