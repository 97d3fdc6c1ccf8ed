"""Programs of this repository, as both compilers build them."""
import os
import shutil

from repository import folder_of, program_of, rt


def built_twice(crate, words, stdin, folder):
    """Builds a program as LLVM builds it and as Rattle's own compiler does, runs it with these words, and returns copies in the folder."""
    built = []
    for name, flags in (("llvm", []), ("rattle", ["--backend", "rattle"])):
        with open(os.path.join(folder_of(crate), stdin), "rb") as file:
            rt(["run", *flags, "--", *words], crate, stdin=file)
        built.append(shutil.copy(program_of(crate), f"{folder}/{crate}_{name}"))
    return built
