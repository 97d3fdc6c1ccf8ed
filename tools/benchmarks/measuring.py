"""What a call costs: instructions that callgrind counts, processor time, and memory at its peak.

A command is a function that gives, for a count, the words of a program that makes a call so often. But for memory, what is told of a call
is the difference of two runs, so what a program does before and after its calls is not in it.
"""
import concurrent.futures
import os
import re
import subprocess
import sys
import tempfile

from repository import TOP

OUT = f"{TOP}/out/bench"
SOURCES = f"{TOP}/tools/benchmarks"


class Missing(Exception):
    """What a table needs is not there: a program that is not built, a package that is not installed."""


def said(text):
    """Tells how far it is."""
    print(f"bench: {text}", file=sys.stderr, flush=True)


def called(command, **how):
    """What a command prints."""
    env = {**os.environ, **how.pop("env", {})}
    done = subprocess.run(command, stdout=subprocess.PIPE, stderr=subprocess.STDOUT, text=True, check=False, env=env, **how)
    if done.returncode:
        raise Missing(f"{' '.join(command)}: {done.stdout[-4000:]}")
    return done.stdout


def collected(words):
    """The instructions of a whole process."""
    text = called(["valgrind", "--tool=callgrind", "--callgrind-out-file=/dev/null", *words])
    return int(re.search(r"Collected : (\d+)", text)[1])


def instructions(command, counted):
    """The instructions of a call."""
    once, twice = (collected(command(count)) for count in (counted, 2 * counted))
    return (twice - once) / counted


def all_instructions(works, jobs):
    """The instructions of each call of many, so many at a time, since a count does not depend on what else runs. A work is a command and
    how often its call is made in the shorter run, or None."""
    with concurrent.futures.ThreadPoolExecutor(jobs) as pool:
        return list(pool.map(lambda work: work and instructions(*work), works))


def used(words, given=None):
    """What the system tells of a run that is done. Its input is a file, if one is given."""
    with open(given or os.devnull, "rb") as file, tempfile.TemporaryFile() as errors:
        process = subprocess.Popen(words, stdin=file, stdout=subprocess.DEVNULL, stderr=errors)
        _, status, usage = os.wait4(process.pid, 0)
        process.returncode = os.waitstatus_to_exitcode(status)
        if status:
            errors.seek(0)
            raise Missing(f"{' '.join(words)}: status {process.returncode}: {errors.read(400).decode(errors='replace').strip()}")
    return usage


def seconds(words, given=None):
    """The processor time of a run, on all processors."""
    usage = used(words, given)
    return usage.ru_utime + usage.ru_stime


def peak(words):
    """The bytes of memory that a run has at its peak."""
    return used(words).ru_maxrss * 1024


def counts_of(command, least):
    """How often a call is made in the shorter run, so that the longer one takes at least so many seconds more."""
    count, once = 1, seconds(command(1))
    while (twice := seconds(command(2 * count))) - once < least:
        count, once = 2 * count, twice
    return count


def nanoseconds(commands, rounds, least):
    """The processor time of each command's call. The commands take turns; of each run the quickest counts."""
    counts = [counts_of(command, least) for command in commands]
    found = [[float("inf")] * 2 for _ in commands]
    for _ in range(rounds):
        for command, count, times in zip(commands, counts, found):
            for which in range(2):
                times[which] = min(times[which], seconds(command((which + 1) * count)))
    return [max(1.0, (twice - once) / count * 1e9) for (once, twice), count in zip(found, counts)]
