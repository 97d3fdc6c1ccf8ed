"""Gzip files, sound, changed and cut: our verdict and text beside those of zlib and Go.

Makes files by a seed with Python's zlib: all levels, strategies, window and memory sizes, flushes, kinds of blocks, header fields, one
member and more. Every second one is changed: bits and bytes another, more and fewer, cut, or with a tail. Runs our program on each, and
compares verdict, text and the kind of the fault with those of zlib's raw inflate under a strict reading of RFC 1952, and where golang-go is
installed verdict and text with Go's compress/gzip; a difference from Go has to be one of EXPLAINED. With `--cut`, cuts small files at every
length too. Ends with status 1 where they differ; `--keep` leaves such files. The program is crates/gunzip/out/gunzip if none is named:
`rt run` makes it.
"""
import collections
import hashlib
import os
import random
import subprocess
import tempfile

from comparisons.gzip_files import KINDS, changed, file, judged, member, text
from comparisons.go_programs import built_go
from comparisons.gzip_readers import EXPLAINED, by_go, reason
from repository import at, program_of

CHECKS = False


def ours(program, whole):
    """The text and None, or None and the reason."""
    done = subprocess.run([program], input=whole, capture_output=True, check=False, timeout=600)
    if done.returncode == 0:
        return done.stdout, None
    return None, done.stderr.decode(errors="replace").split("\n")[0]


def samples():
    """Files of this repository, for texts."""
    found = []
    for folder, _, names in os.walk(at("crates")):
        found += [f"{folder}/{name}" for name in sorted(names)[:3] if "/out" not in folder]
    return sorted(found)


def small(chance):
    """Small files, for cuts."""
    contents = [b"", b"a" * 10, bytes(range(256)), text(chance, samples())[:2000]]
    return [member(chance, content) for content in contents] + [member(chance, b"one") + member(chance, b"two")]


def files(options):
    """The files that are compared."""
    chance = random.Random(options.seed)
    known = samples()
    for number in range(options.count):
        whole = file(chance, known)
        yield changed(chance, whole) if number % 2 else whole
    if options.cut:
        for whole in small(chance):
            yield from (whole[:end] for end in range(len(whole)))


class Comparison:
    """Counts of what was found, and the files on which readers differ."""

    def __init__(self, program):
        self.program, self.counts, self.wrong = os.path.abspath(program), collections.Counter(), []

    def add(self, whole, go):
        """A file, and what Go says of it, if that is known."""
        wanted, found = judged(whole), ours(self.program, whole)
        self.counts[f"zlib: {wanted[1] or 'sound'} | we: {found[1] or 'sound'}"] += 1
        same = wanted[0] == found[0] and (found[1] is None or found[1] in KINDS[wanted[1]])
        if not same:
            self.wrong.append(whole)
        elif go is not None:
            self.beside_go(whole, found, go)

    def beside_go(self, whole, found, go):
        content, fault = found
        said = hashlib.sha256(content).hexdigest() if fault is None else ""
        if said == go:
            self.counts["Go: the same"] += 1
            return
        why = reason(whole, fault, go)
        self.counts[f"Go: {EXPLAINED[why] if why else 'not explained'}"] += 1
        if not why:
            self.wrong.append(whole)


def options_of(parser):
    parser.add_argument("--program", metavar="FILE", default=program_of("gunzip"))
    parser.add_argument("--count", type=int, default=1000, help="how many files (1000 if not given)")
    parser.add_argument("--seed", type=int, default=1)
    parser.add_argument("--cut", action="store_true", help="small files too, cut at every length")
    parser.add_argument("--keep", metavar="FOLDER", help="leave the files on which readers differ here")


def run(options):
    found = Comparison(options.program)
    with tempfile.TemporaryDirectory() as folder:
        go = built_go("gzip_reader.go", folder)
        for whole in files(options):
            found.add(whole, by_go(go, folder, whole) if go else None)
    if options.keep:
        os.makedirs(options.keep, exist_ok=True)
        for number, whole in enumerate(found.wrong):
            with open(f"{options.keep}/{number}.gz", "wb") as kept:
                kept.write(whole)
    for kind, count in sorted(found.counts.items()):
        print(f"{count:6} {kind}")
    print(f"{len(found.wrong)} files differ")
    return 1 if found.wrong else 0
