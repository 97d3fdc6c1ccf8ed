"""Records: their sources, specifications and proofs in crates/, from tools/records/*.records.

It writes all files of all records that are not up to date. With --check it prints each file that differs, is missing, or is no longer
generated.

The proofs of what a record reads, writes, copies and builds are written too, since the search takes long to find them.

To add a record, describe it in a file of tools/records, run this, and name it in its crate's lib.rt. Every generated file says so in its
first line; what a record has of its own is beside it, in RECORD/PART.rt and specs/RECORDOwn.antt, which are written by hand. Schemas
list the texts of closed names, so run `tools/gen names` first where one changed.

A file of tools/records describes the records of one crate, a line each:

  crate NAME                    the crate of the records
  from CRATE RECORD..           records of a crate below, which members hold
  names CRATE ENUM..            closed names of a crate below or of the crate itself, which members hold
  takes PATH ITEM..             items of this path that the code of defaults names
  words PATH WORD..             definitions of this path that the contents of defaults name
  record NAME                   a record begins
  about TEXT                    what it is, with the section of the public specification
  required FIELD..              the required fields of its builder, in order
  default FIELD CODE | CONTENT  the default of a member, in code and as content
  fixed FIELD                   its builder has no setter for this field, which has its default
  whole                         it has a default document, `try_default`
  copy                          it is Copy
  calls                         it has calls of its own that deserialize and serialize it; its documents have to be always serializable (no
                                `detail`, free map or CPU list in it)
  display FIELD                 it displays as pretty JSON, made with the allocator of this field
  long PART..                   its `builder`, or also its `calls` or its accessors (`fields`), are in files of their own, RECORD/PART.rt
  above CRATE                   its builder is in this crate above, in src/RECORD_builder.rt, and makes the document by setters from a
                                bare one, which a function of the record's own crate returns
  by_hand PART..                files of its own that are written by hand, RECORD/PART.rt; with `build` among them, its builder's `build`
  public PART ITEM..            items of such a file that the record's file re-exports
  PRESENCE NAME TYPE MARKS TEXT a member: R required, O optional, D with a default, N nullable, E omitted where empty; its JSON name, with
                                an alias behind a bar; its type; its accessors (g by reference, c by copy, m mutable, s setter); what it is

Types: T string, B boolean, u16 u32 u64 usize i32 i64, [x] list, {x} map, Keys, Detail, Caps, Cpu, Free (an object of any values; its
record's equality is no derived one, since such values have none), Digest, Media, Os, Arch, closed names, and records.
"""
import os

from generator import output, records_files, schemas
from generator.records import Book, snake
from repository import TOP


def run(options):
    books = Book.of_folder(os.path.join(TOP, "tools/records"))
    files = records_files.all_files(books, TOP) | schemas.Table(books, os.path.join(TOP, "crates"), snake).files()
    return output.run("records", TOP, files, options.check)
