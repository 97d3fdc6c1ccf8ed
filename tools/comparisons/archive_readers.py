"""What readers of archives list: for a file the entries, each its kind, size, name and link target, and `end` or why there are no more."""
import ast
import hashlib
import json
import re
import subprocess
import tarfile

KIND_OF_LETTER = {"-": "0", "h": "1", "l": "2", "c": "3", "b": "4", "d": "5", "p": "6", "C": "7"}
KIND_OF_WORD = {"file": "0", "hardlink": "1", "symlink": "2", "character": "3", "block": "4", "directory": "5", "fifo": "6", "sparse": "S"}
ESCAPES = {"n": 10, "t": 9, "r": 13, "a": 7, "b": 8, "f": 12, "v": 11, "\\": 92, '"': 34, "?": 63}
QUOTED = re.compile(r'"((?:[^"\\]|\\.)*)"')


def by_python(path):
    entries = []
    try:
        with tarfile.open(path, "r:", encoding="utf-8", errors="surrogateescape") as archive:
            for info in archive:
                name, link = (it.encode("utf-8", "surrogateescape") for it in (info.name, info.linkname))
                entries.append((info.type.decode("latin-1"), info.size, name, link))
    except (tarfile.TarError, ValueError, OverflowError, UnicodeError, OSError, LookupError, MemoryError) as error:
        return entries, type(error).__name__
    return entries, "end"


def unquoted(text):
    """The bytes of a name in C's quotes, as GNU tar prints it."""
    out, at = bytearray(), 0
    while at < len(text):
        if text[at] != "\\":
            out += text[at].encode("utf-8", "surrogateescape")
            at += 1
        elif text[at + 1] in "01234567":
            out.append(int(text[at + 1:at + 4], 8))
            at += 4
        else:
            out.append(ESCAPES[text[at + 1]])
            at += 2
    return bytes(out)


def by_gnu(path):
    words = ["tar", "-tvf", path, "-P", "--numeric-owner", "--full-time", "--quoting-style=c"]
    done = subprocess.run(words, capture_output=True, env={"LC_ALL": "C.UTF-8", "PATH": "/usr/bin:/bin", "TZ": "UTC"})
    entries = []
    for line in done.stdout.decode("utf-8", "surrogateescape").split("\n"):
        names = QUOTED.findall(line)
        if names:
            size = line[:line.index('"')].split()[2]
            kind = KIND_OF_LETTER.get(line[0], line[0])
            entries.append((kind, 0 if "," in size else int(size), unquoted(names[0]), unquoted(names[1]) if len(names) > 1 else b""))
    return entries, "end" if done.returncode == 0 else "error"


def by_go(program, paths):
    """What Go's archive/tar lists of each file; `program` is archive_readers.go, built."""
    found = {}
    for at in range(0, len(paths), 200):
        some = paths[at:at + 200]
        lines = subprocess.run([program, *some], capture_output=True, text=True, check=True).stdout.splitlines()
        for path, line in zip(some, map(json.loads, lines)):
            found[path] = [(kind, int(size), bytes.fromhex(name), bytes.fromhex(link)) for kind, size, name, link in line["entries"]], line["end"]
    return found


def escaped(text):
    """The bytes of a name as our program prints it."""
    return ast.literal_eval("b" + text)


class Ours:
    """What our program lists of a file."""

    def __init__(self, program, path):
        with open(path, "rb") as file:
            done = subprocess.run([program], stdin=file, capture_output=True, text=True, timeout=60)
        *lines, last = done.stdout.splitlines() or [""]
        self.status, self.end = done.returncode, last.removeprefix("fault\t")
        self.entries, self.places, self.sparse = [], [], False
        for word, size, offset, name, link in (line.split("\t") for line in lines):
            word, plus, _ = word.partition("+")
            kind = KIND_OF_WORD.get(word) or chr(int(word.removeprefix("other")))
            self.sparse |= bool(plus) or kind == "S"
            self.entries.append((kind, int(size), escaped(name), escaped(link)))
            self.places.append((int(offset), int(size)))

    def has_contents_of(self, path):
        """Whether the bytes at its places are the contents that Python reads."""
        with open(path, "rb") as file, tarfile.open(path, "r:", encoding="utf-8", errors="surrogateescape") as archive:
            for (offset, size), info in zip(self.places, archive):
                file.seek(offset)
                if info.isreg() and hashlib.sha256(file.read(size)).digest() != hashlib.sha256(archive.extractfile(info).read()).digest():
                    return False
        return True
