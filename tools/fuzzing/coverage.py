"""Fuzzing of the library for C by libFuzzer, which sees what code each input reaches.

The proved code of crates/oci_ffi reaches LLVM as one module, which the kit's own clang compiles. A copy of the kit, of links alone but
for that clang, has a script in its place that adds `-fsanitize-coverage`, so the archive has counters at each edge and reports each
comparison. The code is otherwise the one that is proved. The archives without counters then run all inputs that were kept.
"""
import os
import re
import shlex
import shutil
import subprocess
import sys

from repository import TOP, folder_of

OUT = f"{TOP}/out/fuzz"
CRATE = folder_of("oci_ffi")
ARCHIVE = "out/liboci_ffi.a"
TARGET = f"{TOP}/bindings/c/tests/fuzz.c"
COUNTERS = "-fsanitize-coverage=inline-8bit-counters,pc-table,trace-cmp"
# the first byte of an input that is no document, after those of the kinds
REFERENCE, PIN, DIGEST = 14, 15, 16
LONGEST_INPUT, LONGEST_WORD = 8192, 64
DIGESTS = [b"%s:%s" % (name, (b"0123456789abcdef" * 8)[:digits]) for name, digits in ((b"sha256", 64), (b"sha384", 96), (b"sha512", 128))]
WORD = re.compile(rb'"(?:[^"\\]|\\.)*"')
SCRIPT = "#!/bin/sh\nexec {} {} \"$@\"\n"


def called(command, **how):
    """Runs a command, and ends with what it printed where it failed."""
    done = subprocess.run(command, stdout=subprocess.PIPE, stderr=subprocess.STDOUT, text=True, errors="replace", check=False, **how)
    if done.returncode:
        sys.exit(f"{shlex.join(command)}:\n{done.stdout[-4000:]}")
    return done.stdout


def linked(folder, to, but):
    """Makes a folder with a link to each file of another, but for some."""
    os.makedirs(to)
    for name in set(os.listdir(folder)) - set(but):
        os.symlink(f"{folder}/{name}", f"{to}/{name}")


def kit_with_counters(kit):
    """Makes the copy of the kit, and returns its `rt`. That finds its kit beside itself, so it is copied."""
    to = f"{OUT}/kit"
    shutil.rmtree(to, ignore_errors=True)
    linked(kit, to, ["bin", "toolchain"])
    linked(f"{kit}/bin", f"{to}/bin", ["rt", "rtlib.py"])
    for name in ("rt", "rtlib.py"):
        shutil.copy(f"{kit}/bin/{name}", f"{to}/bin/{name}")
    linked(f"{kit}/toolchain", f"{to}/toolchain", ["bin"])
    linked(f"{kit}/toolchain/bin", f"{to}/toolchain/bin", ["clang"])
    with open(f"{to}/toolchain/bin/clang", "w", encoding="utf-8") as file:
        file.write(SCRIPT.format(f"{kit}/toolchain/bin/clang", COUNTERS))
    os.chmod(f"{to}/toolchain/bin/clang", 0o755)
    return f"{to}/bin/rt"


def archive_with_counters(kit):
    """Builds the archive with counters, and leaves the crate's own archive as it was."""
    kept, made = f"{OUT}/kept.a", f"{OUT}/liboci_ffi.a"
    if os.path.exists(f"{CRATE}/{ARCHIVE}"):
        shutil.copy2(f"{CRATE}/{ARCHIVE}", kept)
    called([kit_with_counters(kit), "lib"], cwd=CRATE)
    os.replace(f"{CRATE}/{ARCHIVE}", made)
    if os.path.exists(kept):
        os.replace(kept, f"{CRATE}/{ARCHIVE}")
    return made


def compiled(compiler, name, archives, *flags):
    """Compiles the target over an archive, and returns the program."""
    command = [compiler, "-std=c99", "-D_GNU_SOURCE", "-O1", "-g", f"-I{TOP}/bindings/c", *flags, TARGET, *archives, "-o", f"{OUT}/{name}"]
    called(command)
    return f"{OUT}/{name}"


def write_seeds(documents, texts):
    """Writes the documents of each kind, and references, pins and digests of them, as inputs. Returns how many there are."""
    texts = [*texts, *DIGESTS, *(text + b"@" + DIGESTS[at % len(DIGESTS)] for at, text in enumerate(texts))]
    seeds = {bytes([kind]) + text for kind, them in enumerate(documents) for text in them}
    seeds |= {bytes([it]) + text for text in texts for it in (REFERENCE, DIGEST)}
    descriptors = sorted(set(documents[5]))
    seeds |= {bytes([PIN]) + text + b"\0" + descriptors[at % len(descriptors)] for at, text in enumerate(texts)}
    os.makedirs(f"{OUT}/seeds")
    for number, text in enumerate(sorted(seeds)):
        with open(f"{OUT}/seeds/{number:04}", "wb") as file:
            file.write(text)
    return len(seeds)


def write_words(documents, words):
    """Writes a dictionary: the strings of the documents, and more words. Returns how many there are."""
    found = {it for them in documents for text in them for it in WORD.findall(text)} | set(words)
    found = sorted(it for it in found if 0 < len(it) <= LONGEST_WORD)
    with open(f"{OUT}/words", "w", encoding="utf-8") as file:
        file.writelines(f'"{"".join(f"{chr(92)}x{byte:02x}" for byte in it)}"\n' for it in found)
    return len(found)


def fuzzed(program, options):
    """Runs libFuzzer, and returns whether all inputs held. What it prints goes to out/fuzz/log."""
    for folder in ("corpus", "found"):
        os.makedirs(f"{OUT}/{folder}", exist_ok=True)
    command = [program, f"-max_total_time={options.minutes * 60}", f"-seed={options.seed}", f"-max_len={LONGEST_INPUT}", "-timeout=10"]
    command += ["-rss_limit_mb=2048", f"-dict={OUT}/words", f"-artifact_prefix={OUT}/found/", "-print_final_stats=1", f"{OUT}/corpus", f"{OUT}/seeds"]
    with open(f"{OUT}/log", "wb") as log:
        status = subprocess.run(command, stdout=log, stderr=log, check=False).returncode
    with open(f"{OUT}/log", encoding="utf-8", errors="replace") as log:
        lines = log.read().split("\n")
    shown = [it for it in lines if re.search(r"fuzz\.c:\d+: |^SUMMARY|Test unit written|number_of_executed_units|INFO: Loaded . modules", it)]
    print("\n".join([*shown, *[it for it in lines if re.match(r"#\d+\s+(DONE|INITED)", it)]]))
    return status == 0


def replayed(kit, archives):
    """Runs all inputs over archives without counters. Returns whether all held, with the same statuses and outputs."""
    found = []
    for number, archive in enumerate(archives):
        program = compiled("cc", f"replay_{number}", [archive, f"{kit}/c/liblibc_c.a"], "-DREPLAY")
        for folder in ("seeds", "corpus"):
            done = subprocess.run([program, f"{OUT}/{folder}"], stdout=subprocess.PIPE, stderr=subprocess.STDOUT, text=True, check=False)
            print(f"{folder} over {os.path.relpath(archive, TOP)}: {done.stdout.strip() or f'status {done.returncode}'}")
            found.append((folder, done.returncode, done.stdout))
    return len(set(found)) == 2 and not any(status for _, status, _ in found)


def run(documents, texts, words, options):
    """Fuzzes for the minutes of the options. Returns whether all inputs held."""
    if not shutil.which("clang"):
        sys.exit("there is no clang; libFuzzer is in Debian's packages clang and libclang-rt-14-dev")
    kit = os.path.dirname(called(["rt", "doc"]).strip())
    called(["rt", "lib"], cwd=CRATE)
    shutil.rmtree(f"{OUT}/seeds", ignore_errors=True)
    os.makedirs(OUT, exist_ok=True)
    print(f"{write_seeds(documents, texts)} seeds, {write_words(documents, words)} words")
    program = compiled("clang", "target", [archive_with_counters(kit), f"{kit}/c/liblibc_c.a"], "-fsanitize=fuzzer")
    held = fuzzed(program, options)
    return replayed(kit, [f"{CRATE}/{ARCHIVE}", *options.archive]) and held
