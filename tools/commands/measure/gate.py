"""A run of the gate: the processor seconds of each crate, and what they are in units.

It starts COMMAND (`rt ci` if none is given) in FOLDER (the top of this repository if none is given), sends what the run writes
to FILE (out/gate.log there if none is given), and looks twice a second at the processes of `rattle` that the run has started. At the
end, also where the run is interrupted, it prints a table in Markdown and adds it to FILE:

  proof      the proof of the crate without its tests
  tests      the proof of its tests, and their code
  mutants    the checks of its must-fail edits, and those of the unchanged crate before and after them
  building   the code of a program, and its linking
  units      all of these, divided by the unit: what the proof of oci_base took in the same run

With `--unit-every` the proof of oci_base is made again and again while the run goes on, beside it and apart from it, and a unit
is the mean of all: else it is taken in the first minute alone, in which the run does little else and a processor does more in a second.

With `--from` nothing is run: the numbers are those at the end of an
earlier run's FILE. Several files are those of runs on one machine, in their order, of which each proved what the ones before it had not, or what had
changed since: a crate's seconds are those of the last run that took some for that stage, in units of that run; a run that is named again at the
end counts before all others. Crates that are no longer there are left out, and so are their tests, mutants and programs that are gone.

A run's speed differs by the hour, and a unit with it, so units of two runs can be compared and seconds can not. Seconds are user
and system time of a process and of all that it started; what it took after it was last seen, half a second at most, counts to the
rest, with the formatting and the running of programs and tests. `--each` prints the seconds of each mutant too, in the order in which they are tried.
The status is that of the run.
"""
import glob
import os
import re
import resource
import shlex
import shutil
import signal
import subprocess
import sys
import tempfile
import threading
import time

from repository import TOP, crates, folder_of

CHECKS = False
UNIT = "oci_base"
STAGES = ("proof", "tests", "mutants", "building")
TICK = os.sysconf("SC_CLK_TCK")
SECONDS_BETWEEN_LOOKS = 0.5


def content(path):
    """The bytes of a file; none where it cannot be read."""
    try:
        with open(path, "rb") as it:
            return it.read()
    except OSError:
        return b""


class Process:
    """What /proc tells of a process: who started it, when, and the seconds of it and of those it started that have ended."""

    def __init__(self, pid, stat):
        # (the name in parentheses may hold anything)
        words = stat.rpartition(b")")[2].split()
        self.pid, self.parent, self.begun = pid, int(words[1]), int(words[19])
        self.seconds = sum(map(int, words[11:15])) / TICK
        self.children = []

    def whole(self):
        """Seconds with those of all that runs below."""
        return self.seconds + sum(it.whole() for it in self.children)

    def command(self):
        words = content(f"/proc/{self.pid}/cmdline").decode(errors="replace").split("\0")
        return os.path.basename(words[0]), words[1:]

    def folder(self):
        try:
            return os.readlink(f"/proc/{self.pid}/cwd")
        except OSError:
            return ""


def below(pid):
    """Returns the process with all that runs below it, or None where it has ended."""
    found = {}
    for name in os.listdir("/proc"):
        stat = content(f"/proc/{name}/stat") if name.isdigit() else b""
        if stat:
            found[int(name)] = Process(int(name), stat)
    for it in found.values():
        if it.parent in found:
            found[it.parent].children.append(it)
    return found.get(pid)


def after(words, flag):
    return words[words.index(flag) + 1] if flag in words[:-1] else ""


def stage_of(process):
    """Returns the crate and the stage that a process of rattle works for, or None for what counts to no stage (yet)."""
    program, words = process.command()
    folder = process.folder()
    if program == "rattle-link":
        return os.path.basename(folder), "building"
    if program != "rattle" or not words or words[0] not in ("check", "build"):
        return None
    crate = after(words, "--crate-name")
    if os.path.basename(folder).startswith("rt-edit-"):
        return crate, "mutants"
    if "--crate-checked" in words:
        return crate, "building"
    return crate, "tests" if "--test" in words else "proof"


class UnitAgain:
    """Makes the proof of the unit's crate again every few minutes, in a copy of its folder, and keeps the seconds of each."""

    def __init__(self, minutes):
        self.minutes, self.words, self.folder, self.seconds, self.child = minutes, None, "", [], None
        self.done = threading.Event()
        self.thread = threading.Thread(target=self.prove_until_done)
        self.thread.start()

    def saw(self, process):
        """Takes the command of the run's own proof, and where it is run."""
        if self.words is None:
            words = [it.decode() for it in content(f"/proc/{process.pid}/cmdline").split(b"\0")[:-1]]
            if "-o" in words:
                self.words, self.folder = words, process.folder()

    def prove_until_done(self):
        while self.minutes and not self.done.wait(self.minutes * 60):
            if self.words:
                self.prove()

    def prove(self):
        with tempfile.TemporaryDirectory(prefix="gate-unit-") as room:
            for part in ("src", "specs", "proofs"):
                if os.path.isdir(f"{self.folder}/{part}"):
                    shutil.copytree(f"{self.folder}/{part}", f"{room}/{part}")
            words = list(self.words)
            words[words.index("-o") + 1] = f"{room}/{UNIT}.rlib"
            how = {"stdin": subprocess.DEVNULL, "stdout": subprocess.DEVNULL, "stderr": subprocess.DEVNULL}
            self.child = subprocess.Popen(words, cwd=room, **how)
            _, status, used = os.wait4(self.child.pid, 0)
            self.child.returncode = status
            if status == 0:
                self.seconds.append(used.ru_utime + used.ru_stime)

    def end(self):
        self.done.set()
        if self.child and self.child.returncode is None:
            os.kill(self.child.pid, signal.SIGTERM)
        self.thread.join()


class Meter:
    """Looks at a run's processes again and again, and keeps the most seconds seen of each."""

    def __init__(self, pid, again):
        self.pid, self.again, self.stages, self.seconds = pid, again, {}, {}
        self.done = threading.Event()
        self.thread = threading.Thread(target=self.look_until_done)
        self.thread.start()

    def look_until_done(self):
        while not self.done.wait(SECONDS_BETWEEN_LOOKS):
            top = below(self.pid)
            if top:
                self.look(top)

    def look(self, process):
        key = process.pid, process.begun
        if key not in self.stages:
            stage = stage_of(process)
            if stage:
                self.stages[key] = stage
            if stage == (UNIT, "proof"):
                self.again.saw(process)
        if key in self.stages:
            self.seconds[key] = max(self.seconds.get(key, 0), process.whole())
        else:
            for it in process.children:
                self.look(it)

    def end(self):
        self.done.set()
        self.thread.join()
        self.again.end()

    def units(self):
        """The seconds of each measurement of the unit."""
        first = self.sums().get((UNIT, "proof"))
        return [first, *self.again.seconds] if first else []

    def sums(self):
        """Seconds by crate and stage."""
        sums = {}
        for key, stage in self.stages.items():
            sums[stage] = sums.get(stage, 0) + self.seconds.get(key, 0)
        return sums

    def each(self, crate):
        """Seconds of the checks of a crate's mutants, in their order."""
        return [self.seconds.get(key, 0) for key, stage in self.stages.items() if stage == (crate, "mutants")]


def watched(command, folder, log, minutes):
    """Runs the command, and returns its status, what was measured, and its wall and processor seconds."""
    begun = time.time()
    with open(log, "wb") as out:
        # (in a session of its own, so that an interrupt from the terminal reaches it once)
        how = {"cwd": folder, "stdin": subprocess.DEVNULL, "stderr": subprocess.STDOUT, "start_new_session": True}
        started = subprocess.Popen(command, stdout=out, **how)
        for it in (signal.SIGINT, signal.SIGTERM):
            signal.signal(it, lambda number, _: started.send_signal(number))
        meter = Meter(started.pid, UnitAgain(minutes))
        status = started.wait()
        meter.end()
    used = resource.getrusage(resource.RUSAGE_CHILDREN)
    return status, meter, time.time() - begun, used.ru_utime + used.ru_stime - sum(meter.again.seconds)


def mutants_named(crate, said):
    """Returns the names of the crate's mutants that the run reports, in the order in which they were tried."""
    return re.findall(rf"(?m)^rt: must-fail {crate}/(\S+)\.edit: ", said)


def number(seconds, count=""):
    return f"{seconds:.0f}{f' for {count}' if count else ''}" if seconds else ""


def table(meter, said, wall, whole):
    """The table, with a line on the run."""
    sums = meter.sums()
    taken = meter.units()
    unit = sum(taken) / len(taken) if taken else 0
    units = lambda seconds: f"{seconds / unit:.1f}" if unit else ""
    of_crate = {}
    for (crate, _), seconds in sums.items():
        of_crate[crate] = of_crate.get(crate, 0) + seconds
    lines = [f"| crate | {' | '.join(STAGES)} | units |", f"|---{'|---' * len(STAGES)}|---|"]
    for crate, seconds in sorted(of_crate.items(), key=lambda it: (-it[1], it[0])):
        tried = len(mutants_named(crate, said)) or len(meter.each(crate))
        cells = [number(sums.get((crate, it), 0), tried if it == "mutants" else "") for it in STAGES]
        lines.append(f"| `{crate}` | {' | '.join(cells)} | {units(seconds)} |")
    seen = sum(of_crate.values())
    cells = [number(sum(n for (_, stage), n in sums.items() if stage == it)) for it in STAGES]
    lines.append(f"| the rest |{' |' * len(STAGES)} {units(max(whole - seen, 0))} |")
    lines.append(f"| all | {' | '.join(cells)} | {units(whole)} |")
    of = f", the mean of {len(taken)} from {min(taken):.1f} to {max(taken):.1f}" if len(taken) > 1 else ""
    told = f"A unit was {unit:.1f} seconds{of}" if unit else f"No unit, since {UNIT} was not proved in this run"
    last = said.rstrip("\n").rpartition("\n")[2]
    return [*lines, "", f"{told}; {whole:.0f} seconds of processor time in all, in {wall / 60:.1f} minutes; the run's last line: {last}"]


def each_mutant(meter, said):
    lines = ["", "| crate | mutant | seconds |", "|---|---|---|"]
    for crate in sorted({crate for crate, stage in meter.stages.values() if stage == "mutants"}):
        # (a crate with several mutants is checked unchanged before and after them, and what was not refused is tried once more)
        names, taken = [f"`{it}`" for it in mutants_named(crate, said)], meter.each(crate)
        names = ["unchanged, before them"] * (len(taken) > len(names)) + names
        for at, seconds in enumerate(taken):
            lines.append(f"| `{crate}` | {names[at] if at < len(names) else 'unchanged, or once more'} | {seconds:.1f} |")
    return lines


def last_table(path):
    """The lines of the table at the end of an earlier run's log, with the line on the run."""
    lines = content(path).decode(errors="replace").split("\n")
    begins = [n for n, line in enumerate(lines) if line.startswith("| crate | ") and line.endswith(" | units |")]
    ends = [n for n, line in enumerate(lines) if "processor time in all" in line]
    return lines[begins[-1]:ends[-1] + 1] if begins and ends else sys.exit(f"{path} has no table of a run")


def cells_of(path):
    """The cells of the table at the end of an earlier run's log that are not empty, by crate and stage."""
    cells = {}
    for line in last_table(path):
        row = re.match(r"\| `(\w+)` \|(.*)\|", line)
        if row:
            for stage, cell in zip(STAGES, row[2].split("|")):
                if cell.strip():
                    cells[row[1], stage] = cell.strip()
    return cells


def stages_there():
    """The stages of each crate that there is, as pairs."""
    there = set()
    for crate, listed in crates().items():
        folder = folder_of(crate)
        has_tests = any(b"#[test]" in content(path) for path in glob.glob(f"{folder}/src/**/*.rt", recursive=True))
        is_there = True, has_tests, bool(glob.glob(f"{folder}/must-fail/*.edit")), listed.has_program() or has_tests or listed.is_archive
        there |= {(crate, stage) for stage, it in zip(STAGES, is_there) if it}
    return there


def joined_tables(paths):
    """The table of several runs, of which the later ones count where they measured a stage too, each in the unit of its own run."""
    cells, units, present, unit = {}, {}, stages_there(), 0
    for path in paths:
        found = cells_of(path)
        told = re.match(r"A unit was ([\d.]+) seconds", last_table(path)[-1])
        unit = float(told[1]) if told else unit or sys.exit(f"{path}: no run until then proved {UNIT}")
        for key in (it for it in found if it in present):
            cells[key], units[key] = found[key], seconds_of(found[key]) / unit
    of_crate = {}
    for (crate, _), n in units.items():
        of_crate[crate] = of_crate.get(crate, 0) + n
    lines = [f"| crate | {' | '.join(STAGES)} | units |", f"|---{'|---' * len(STAGES)}|---|"]
    for crate, n in sorted(of_crate.items(), key=lambda it: (-it[1], it[0])):
        lines.append(f"| `{crate}` | {' | '.join(cells.get((crate, it), '') for it in STAGES)} | {n:.1f} |")
    sums = [str(sum(seconds_of(cell) for (_, stage), cell in cells.items() if stage == it)) for it in STAGES]
    whole = sum(map(seconds_of, cells.values()))
    lines.append(f"| all | {' | '.join(sums)} | {sum(units.values()):.1f} |")
    return [*lines, "", f"A unit was {unit:.1f} seconds, where it was measured last; {whole} seconds of processor time in all, in {len(set(paths))} runs"]


def seconds_of(cell):
    """The seconds of a cell, which may say of how many checks."""
    return int(cell.split()[0]) if cell else 0


def options_of(parser):
    parser.add_argument("--log", metavar="FILE", help="where what the run writes goes")
    parser.add_argument("--each", action="store_true", help="print the seconds of each mutant too")
    parser.add_argument("--unit-every", metavar="MINUTES", type=float, default=0, help="measure the unit again and again beside the run, and take the mean")
    parser.add_argument("--from", metavar="FILE", dest="earlier", nargs="+", help="take the numbers of earlier runs' logs, and run nothing")
    parser.add_argument("--command", metavar="COMMAND", type=shlex.split, default=["rt", "ci"], help="what is run, in one word: rt ci")
    parser.add_argument("folder", metavar="FOLDER", nargs="?", default=TOP)


def run(options):
    if options.earlier:
        lines = last_table(options.earlier[0]) if len(options.earlier) == 1 else joined_tables(options.earlier)
        print("\n".join(lines))
        return 0
    command, folder = options.command, options.folder
    log = options.log or f"{folder}/out/gate.log"
    os.makedirs(os.path.dirname(os.path.abspath(log)), exist_ok=True)
    print(f"{' '.join(command)} in {folder}; what it writes goes to {log}", flush=True)
    status, meter, wall, whole = watched(command, folder, log, options.unit_every)
    said = content(log).decode(errors="replace")
    lines = table(meter, said, wall, whole)
    whole_text = [*lines, *(each_mutant(meter, said) if options.each else [])]
    with open(log, "a", encoding="utf-8") as it:
        it.write("\n".join(["", *whole_text, ""]))
    print("\n".join(whole_text))
    return status if status >= 0 else 1
