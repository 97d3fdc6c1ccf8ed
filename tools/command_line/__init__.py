"""What `ciderglen` says of itself, by its help texts: its commands, with their arguments, options and the values that these may have."""
import re
import subprocess

# help is read on terminals of this width, and clap breaks no line
WIDTH = 100
# names of options and arguments begin left of this column, and further lines of their texts right of it
BEGINNING = 8
LISTED = re.compile(r"\s*\[(default|possible values): ([^\]]*)\]")


def output_of(program, words):
    return subprocess.run([program, *words], stdout=subprocess.PIPE, check=True, text=True).stdout


def errors_of(program, words):
    return subprocess.run([program, *words], stdin=subprocess.DEVNULL, capture_output=True, check=False, text=True).stderr


class Row:
    """An argument, an option or a command: its names as they are shown, and the lines on what it is for."""

    def __init__(self, line):
        words = re.split(r"(?<=\S) {2,}", line, maxsplit=1)
        self.shown, self.column = words[0].strip(), len(line) - len(words[-1])
        self.lines = words[1:]

    def add(self, line):
        """Takes a further line of its text; what is indented in the text stays so."""
        self.lines.append(line[self.column:])

    def short(self):
        found = re.search(r"(?<![\w-])-(\w)", self.shown)
        return found and found.group(1)

    def long(self):
        found = re.search(r"--([\w-]+)", self.shown)
        return found and found.group(1)

    def names(self):
        return [name for name in (self.short() and f"-{self.short()}", self.long() and f"--{self.long()}") if name]

    def value(self):
        """The name of what it takes, if it takes anything."""
        found = re.search(r"[<\[]([\w:-]+)[>\]]", self.shown)
        return found and found.group(1)

    def is_many(self):
        return self.shown.endswith("...")

    def whole(self):
        """All that it says, in one line."""
        return " ".join(line.strip() for line in self.lines)

    def values(self):
        """The only values that it may have; none, where it may have any."""
        return [value for kind, values in LISTED.findall(self.whole()) if kind == "possible values" for value in values.split(", ")]

    def summary(self):
        """What it is for, by the first line of its text."""
        return LISTED.sub("", self.lines[0]).rstrip(":;,.") if self.lines else ""


class Help:
    """A help text: what the command does, how it is called, its commands, arguments, options and exit status, and its example."""

    def __init__(self, text):
        about, usage, *parts = text.rstrip("\n").split("\n\n")
        self.text, self.about, self.usage = text, about.replace("\n", " "), usage.removeprefix("Usage: ")
        self.example, self.sections = "", {}
        for part in parts:
            head, *lines = part.split("\n")
            if lines:
                self.sections[head.rstrip(":")] = rows_of(lines)
            else:
                self.example = head.removeprefix("Example: ")

    def rows(self, head):
        return self.sections.get(head, [])


def rows_of(lines):
    rows = []
    for line in lines:
        if len(line) - len(line.lstrip()) < BEGINNING:
            rows.append(Row(line))
        else:
            rows[-1].add(line)
    return rows


def read(program):
    """The help of the program, and that of each command but `help` by its name."""
    top = Help(output_of(program, ["--help"]))
    names = [row.shown for row in top.rows("Commands") if row.shown != "help"]
    return top, {name: Help(output_of(program, ["help", name])) for name in names}


def wide_lines(top, commands):
    """The lines of the help texts that are too wide."""
    for name, page in {"": top, **commands}.items():
        for line in page.text.split("\n"):
            if len(line) > WIDTH:
                yield f"ciderglen help {name}".strip(), f"{len(line)} columns: {line.strip()}"


def wrong_values(program, commands):
    """The options and arguments of which the help lists other values than the program takes."""
    for name, page in commands.items():
        for row in [*page.rows("Arguments"), *page.rows("Options")]:
            if row.value() and row.value() not in ("FILE", "DIR", "IMAGE"):
                told = LISTED.findall(errors_of(program, [name, *row.names()[-1:], "no such value"]))
                values = [value for _, values in told for value in values.split(", ")]
                if values != row.values():
                    yield f"ciderglen help {name}: {row.shown}", f"lists {row.values()}, and the program takes {values}"
