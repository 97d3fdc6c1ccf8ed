"""Archives, random, changed and made for each fault: our list of entries beside those of Python, GNU tar and Go.

Makes COUNT archives from a seed, by Python's tarfile and GNU tar in all their formats, every second one changed (a bit, a cut, a field of a
header with its checksum made anew), and one for each fault of the reader, and lists each by crates/tar_list, Python's tarfile, GNU tar and,
where golang-go is installed, Go's archive/tar.

What we accept, each of the others has to list alike (kind, size, name, link target, in their order), and the bytes at our places have to be
the contents that Python reads; or the difference is one of EXPLAINED. What we reject, at least one of the others has to reject, or two of
them to read differently; or our fault is one of STRICTER. The status is 1 if anything is otherwise, or if an archive that was made for a
fault has another one. The program is crates/tar_list/out/tar_list if none is named: `rt run` makes it.
"""
import collections
import itertools
import os
import re
import tempfile

from comparisons.archive_readers import Ours, by_gnu, by_go, by_python
from comparisons.archives import SPECIAL, random_archives
from comparisons.go_programs import built_go
from repository import program_of

CHECKS = False

# what others make of an archive that we accept, and why it is not our mistake
EXPLAINED = {
    ("any", "sparse"): "an entry is sparse: we give the content as it lies in the archive, and say so",
    ("go", "flag S"): "Go rejects a sparse file of GNU tar's under POSIX's magic number: we say that it is sparse",
    ("python", "a header for all at the end"): "Python rejects an archive that ends behind a header for all",
    ("gnu", "flag"): "GNU tar shows an entry of an unknown flag as a file, and one of flag D as a directory",
    ("gnu", "no target"): "GNU tar prints no target of a link if it is empty",
}

# faults that we find although Python, GNU tar and Go may all read the archive alike, and why
STRICTER = {
    "Cut": "with no block of zeros at its end, a whole archive cannot be told from one that was cut there",
    "Number": "others read a size that is none as 0, where nothing follows that would show the difference",
    "Sized": "a link, directory, device or FIFO with a size: others differ if blocks follow that could be headers",
    "Slash": "a file whose name ends in a slash: others differ in its kind where they do not show it alike",
    "Value": "a text with a NUL, or without the one at its end: others differ in what follows the NUL",
}


def plain(entries):
    """Entries as all readers show them: names without slashes at their end, sizes of files, targets of links."""
    out = []
    for kind, size, name, link in entries:
        kind = {"\0": "0", "7": "0"}.get(kind, kind)
        out.append((kind, 0 if kind in "123456" else size, name.rstrip(b"/") or name[:1], link if kind in "12" else b""))
    return out


def is_header(block):
    """Whether a block states its checksum."""
    said = block[148:156].strip(b"\0 ")
    return re.fullmatch(b"[0-7]+", said) and int(said, 8) == sum(block[:148]) + 256 + sum(block[156:])


def last_flag(content):
    """The type of the last header."""
    blocks = [content[it:it + 512] for it in range(0, len(content) - 511, 512)]
    return next((it[156:157] for it in reversed(blocks) if is_header(it)), b"")


def reason(reader, ours, theirs, content):
    """Why a reader lists something else than we do: a row of EXPLAINED, or None."""
    entries, end = theirs
    flags = {it[0] for it in ours.entries}
    if reader == "go" and "S" in flags and end != "end":
        return "go", "flag S"
    if ours.sparse:
        return "any", "sparse"
    if reader == "python" and end != "end" and plain(entries) == plain(ours.entries) and last_flag(content) == b"g":
        return "python", "a header for all at the end"
    if reader == "gnu" and end == "end" and len(entries) == len(ours.entries):
        pairs = list(zip(plain(ours.entries), plain(entries)))
        if all(mine == other or mine[2:] == other[2:] and mine[0] not in "0123456" for mine, other in pairs):
            return "gnu", "flag"
        if all(mine == other or mine[0] in "12" and mine[3] == b"" for mine, other in pairs):
            return "gnu", "no target"
    return None


class Comparison:
    """Counts of what was found, and what is not as it should be."""

    def __init__(self):
        self.counts, self.wrong = collections.Counter(), []

    def accepted(self, name, path, ours, others, content):
        self.counts["accepted"] += 1
        for reader, theirs in others.items():
            if theirs[1] == "end" and plain(theirs[0]) == plain(ours.entries):
                self.counts[f"accepted, alike by {reader}"] += 1
                continue
            why = reason(reader, ours, theirs, content)
            self.counts[f"accepted, otherwise by {reader}: {EXPLAINED[why] if why else 'not explained'}"] += 1
            if not why:
                pairs = itertools.zip_longest(plain(ours.entries), plain(theirs[0]))
                first = next((pair for pair in pairs if pair[0] != pair[1]), "the end")
                self.wrong.append(f"{name}: we and {reader} differ ({theirs[1]}): {first}")
        if others["python"][1] == "end" and not ours.sparse:
            if ours.has_contents_of(path):
                self.counts["accepted, with Python's contents at our places"] += 1
            else:
                self.wrong.append(f"{name}: the contents are not Python's")

    def rejected(self, name, ours, others):
        self.counts["rejected"] += 1
        ends = [end == "end" for _, end in others.values()]
        lists = [plain(entries) for entries, _ in others.values()]
        if not any(ends):
            kind = "by all"
        elif not all(ends) or any(it != lists[0] for it in lists):
            kind = "others differ"
        else:
            kind = "by none of the others"
            if ours.end not in STRICTER:
                self.wrong.append(f"{name}: only we reject it, with {ours.end}")
        self.counts[f"rejected, {kind}: {ours.end}"] += 1

    def add(self, name, path, ours, others, content):
        if ours.status != 0:
            self.wrong.append(f"{name}: status {ours.status}")
        elif ours.end == "end":
            self.accepted(name, path, ours, others, content)
        else:
            self.rejected(name, ours, others)


def options_of(parser):
    parser.add_argument("--program", metavar="FILE", default=program_of("tar_list"))
    parser.add_argument("--count", type=int, default=1000)
    parser.add_argument("--seed", type=int, default=1)


def run(options):
    archives = random_archives(options.count, options.seed)
    archives.update({name: content for name, (content, _) in SPECIAL.items()})
    found = Comparison()
    with tempfile.TemporaryDirectory() as folder:
        paths = {}
        for number, (name, content) in enumerate(archives.items()):
            paths[name] = os.path.join(folder, f"{number}.tar")
            with open(paths[name], "wb") as file:
                file.write(content)
        program = built_go("archive_readers.go", folder)
        go = by_go(program, list(paths.values())) if program else {}
        for name, path in paths.items():
            ours = Ours(os.path.abspath(options.program), path)
            others = {"python": by_python(path), "gnu": by_gnu(path), **({"go": go[path]} if program else {})}
            found.add(name, path, ours, others, archives[name])
            if name in SPECIAL and ours.end != SPECIAL[name][1]:
                found.wrong.append(f"{name}: {ours.end} where {SPECIAL[name][1]} is")
    print("\n".join(f"{count:6}  {what}" for what, count in sorted(found.counts.items())))
    if not program:
        print("golang-go is not installed: Go's archive/tar was not asked")
    print("\n".join(found.wrong), end="\n" if found.wrong else "")
    print(f"{len(archives)} archives, {len(found.wrong)} otherwise than they should be")
    return 1 if found.wrong else 0
