"""Enums, closed and extensible, and the integers as members: their sources, specifications and proofs in crates/, from tools/names/*.names.

It writes all of their files that are not up to date. With --check it prints each file that differs, is missing, or is no
longer generated.

A file of tools/names describes the enums of one crate, a line each:

  crate NAME                    the crate of the enums
  name NAME                     a closed enum begins
  title TEXT                    what its file is about, with the section of the public specification
  about TEXT                    what the enum is, a line of its documentation each
  from_str                      it has `from_str`, by its JSON strings
  from_shown                    it has `from_str`, by the displayed texts
  as_str                        it has `as_str`
  display                       it has Display, with its JSON strings or, of those that `shown` names, with another text
  shown VARIANT TEXT            the displayed text of a variant that displays as something else
  try_from BEFORE | AFTER       it has `try_from`, which takes its JSON strings and the displayed texts; its error is the text between these two
  number TEXT                   it has `number`, which is documented so
  hashed                        it has Hash
  absent                        its default is the value of an absent member
  v VARIANT TEXT [NUMBER] [*] | WHAT    a variant: its JSON string, its number, a star if it is the default, and what it is

  open NAME                     an extensible enum begins, which keeps any other text as `Other`
  title, about, v               as above; a variant without number, and maybe without what it is
  noun WORDS                    what its documentation calls a value
  table WORD                    the list of its texts in specifications
  by_hand PART..                files of its own that are written by hand, NAME/PART.rt
  public PART ITEM..            items of such a file that the enum's file re-exports

  integers TYPE..               integer types as members, in src/number.rt
"""
import glob
import os

from generator import names, output
from repository import TOP


def run(options):
    paths = sorted(glob.glob(os.path.join(TOP, "tools/names/*.names")))
    return output.run("names", TOP, names.all_files(paths, TOP), options.check)
