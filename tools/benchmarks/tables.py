"""What the tables share: how much is measured, and how it is laid out."""
import os

from benchmarks import measuring
from benchmarks.inputs import Inputs
from benchmarks.measuring import OUT, said

LARGE, HUGE = 10_000, 1_000_000


def laid_out(columns, rows):
    """The lines of a table. A column in which every cell is empty is left out."""
    kept = [at for at in range(len(columns)) if not rows or any(row[at] for row in rows)]
    lines = [[columns[at] for at in kept], ["---"] * len(kept), *([row[at] for at in kept] for row in rows)]
    return [f"| {' | '.join(line)} |" if line[0] != "---" else f"|{'|'.join(line)}|" for line in lines]


def ratio(ours, theirs):
    """Our cost to a peer's; nothing if there is no such peer."""
    return "" if theirs is None else f"{ours / theirs:.2f}"


def number(cost, digits=0):
    """A cost; nothing if there is none."""
    return "" if cost is None else f"{cost:,.{digits}f}"


def microseconds(cost):
    """Nanoseconds as microseconds, with three digits or more."""
    return number(cost / 1000, 1 if cost < 100_000 else 0)


class Bench:
    """How much is measured, with which programs, on which inputs."""

    def __init__(self, programs, options):
        self.programs = programs
        self.quick, self.jobs = options.quick, options.jobs
        self.rounds = options.rounds
        self.least = 0.02 if options.quick else 0.1
        self.inputs = Inputs(f"{OUT}/inputs")

    def sizes(self, names):
        """Those of the inputs that are measured: without haste, all."""
        return [name for name in names if not self.quick or os.path.getsize(self.inputs.document(name)) <= HUGE]

    def times(self, what, commands):
        """The nanoseconds of each command that there is, by its name."""
        said(what)
        there = {name: command for name, command in commands.items() if command}
        return dict(zip(there, measuring.nanoseconds(list(there.values()), self.rounds, self.least)))

    def counts(self, what, works):
        """The instructions of each work: a command, if there is one, and the bytes of its input."""
        said(what)
        often = lambda size: 20 if size <= LARGE else 2 if size <= HUGE else 1
        return measuring.all_instructions([command and (command, often(size)) for command, size in works], self.jobs)
