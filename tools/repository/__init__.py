"""What all tools share: where the repository is, its files, its crates, and runs of `rt`. Paths are those in the repository, or absolute."""
import difflib
import functools
import os
import subprocess
import sys

TOP = os.path.dirname(os.path.dirname(os.path.dirname(os.path.realpath(__file__))))
LINES_SHOWN = 12
# how crates.txt begins the title of a group, and the title of the group of those that test
GROUP, TESTS = "# ---- ", "tests, examples, measurements"


def at(path):
    """Where a path of the repository is."""
    return os.path.join(TOP, path)


def read(path):
    with open(at(path), encoding="utf-8") as file:
        return file.read()


def read_if_there(path):
    """The text of a file; nothing where there is none."""
    return read(path) if os.path.exists(at(path)) else ""


def write(path, text):
    os.makedirs(os.path.dirname(at(path)), exist_ok=True)
    with open(at(path), "w", encoding="utf-8") as file:
        file.write(text)


def rows(path):
    """The lines of a file that are neither empty nor remarks."""
    return [line for line in read(path).split("\n") if line.strip() and not line.startswith("#")]


def print_difference(path, text):
    """Prints the first lines in which a file differs from a text."""
    lines = difflib.unified_diff(read_if_there(path).split("\n"), text.split("\n"), path, f"{path}, as written now", lineterm="", n=0)
    print("\n".join(line for _, line in zip(range(LINES_SHOWN), lines)))


def brought_up_to_date(files, check):
    """Writes the files that are not as they should be, or prints where they are not. Returns the exit status."""
    changed = [path for path, text in files.items() if read_if_there(path) != text]
    for path in changed:
        if check:
            print_difference(path, files[path])
        else:
            write(path, files[path])
            print(path)
    print(f"{len(files)} files, {len(changed)} {'differ' if check else 'written'}")
    return 1 if check and changed else 0


def with_table(path, name, text):
    """The text of a page, with what stands between its line `<!-- table: NAME -->` and the next `<!-- end -->` replaced."""
    before, begin, rest = read(path).partition(f"<!-- table: {name} -->\n")
    _, end, after = rest.partition("<!-- end -->")
    if not begin or not end:
        sys.exit(f"{path} has no lines <!-- table: {name} --> and <!-- end -->")
    return before + begin + text + end + after


class Listed:
    """A crate of crates.txt: the crates that it uses, those of the kit too, and the title of its group; whether it becomes an archive."""

    def __init__(self, line, group):
        name, _, uses = line.partition(":")
        self.name, *marks = name.split()
        self.uses, self.group, self.is_archive = uses.split(), group, "staticlib" in marks

    def has_program(self):
        return os.path.exists(f"{folder_of(self.name)}/src/main.rt")

    def is_run(self):
        """Whether it is run: a program, the library for C, or a part of the tests."""
        return self.has_program() or self.is_archive or self.group == TESTS


@functools.lru_cache(None)
def crates():
    """The crates of crates.txt, in its order, by their names."""
    found, group = {}, ""
    for line in read("crates.txt").split("\n"):
        group = line.removeprefix(GROUP) if line.startswith(GROUP) else group
        if line.strip() and not line.startswith("#"):
            listed = Listed(line, group)
            found[listed.name] = listed
    return found


def folder_of(crate):
    return at(f"crates/{crate}")


def program_of(crate):
    """Where `rt run` leaves the program of a crate."""
    return at(f"crates/{crate}/out/{crate}")


def rt(words, crate, **how):
    """Runs `rt` in the folder of a crate, and returns what it printed. Where it fails, the run ends with that."""
    done = subprocess.run(["rt", *words], cwd=folder_of(crate), stdout=subprocess.PIPE, stderr=subprocess.STDOUT, text=True, check=False, **how)
    if done.returncode:
        sys.exit(f"{crate}: rt {' '.join(words)}:\n{done.stdout[-4000:]}")
    return done.stdout
