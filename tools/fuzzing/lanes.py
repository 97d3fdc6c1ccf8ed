"""Both lanes of the library on documents that were changed at random: straight from the bytes, and by way of a value.

The program `oci_tests`, with `bench lanes`, takes both ways on each document that it reads, and writes a line for it.
"""
import multiprocessing
import os
import subprocess
import time

import golden
from fuzzing.building import built_twice

BATCH = 500
LINES = {b"same accepted": True, b"same rejected": False}


def build(folder):
    """Builds the program by both compilers. With no document it compares nothing, and says so with status 0."""
    return built_twice(golden.NAME, ["bench", "lanes"], os.devnull, folder)


def answers(program, documents):
    """The lines that the program writes for the documents; those that are missing are empty."""
    given = b"".join(b"%s %d\n%s" % (kind, len(text), text) for kind, text in documents)
    done = subprocess.run([program, "bench", "lanes"], input=given, capture_output=True, check=False)
    lines = done.stdout.splitlines()[:len(documents)]
    if done.returncode not in (0, 1):
        print(f"{program}: ended with {done.returncode}, reported {done.stderr[-2000:]!r}", flush=True)
    return lines + [b""] * (len(documents) - len(lines))


def work(given):
    """Runs a share of the cases, and returns how many there were, how many of them were accepted, and what differed."""
    counts, programs, document = given
    cases = [(count, found) for count in counts if (found := document(count))]
    accepted, faults = 0, []
    for place, program in enumerate(programs):
        for (count, (kind, text)), line in zip(cases, answers(program, [it[1] for it in cases])):
            if line not in LINES:
                faults.append(f"case {count}: {program}: {line.decode() or 'no answer'}: {kind.decode()} over {text!r}")
            elif place == 0:
                accepted += LINES[line]
    return len(cases), accepted, faults


def run(options, programs, document):
    """Takes both ways on the document of each case, and returns how many differed."""
    counts = options.only or range(options.cases)
    shares = [(counts[it:it + BATCH], programs, document) for it in range(0, len(counts), BATCH)]
    begun, ran, accepted, broken = time.time(), 0, 0, 0
    with multiprocessing.Pool(options.jobs) as pool:
        for some, good, faults in pool.imap_unordered(work, shares):
            ran, accepted, broken = ran + some, accepted + good, broken + len(faults)
            for it in faults:
                print(it, flush=True)
    print(f"seed {options.seed}, {len(programs)} programs, {time.time() - begun:.0f} seconds")
    print(f"{ran} documents, {accepted} accepted, {broken} broken")
    return broken
