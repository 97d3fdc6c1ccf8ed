"""Generates the sources, specifications and proofs of records and of enums.

  records.py    the model: Book, Record, Member, Type, read from tools/records/*.records
  text.py       what all parts share: lists of imports, tuples of at most five, the first line of a generated file
  source.py     a record's struct and its inherent impl; calls.py, accessors.py: long parts of it
  convert.py    its `impl OciRecord`: deserialization, serialization, copies
  builders.py   its builder
  specs.py      its content, its default, what its mutable borrows promise, its equality
  proofs.py     the proof answers that the search does not find
  shapes.py     the shapes of all records, in a crate below them
  schemas.py    the schemas of all records, and the impls of `HasSchema`
  imports.py    the imports of source files
  records_files.py  all of these files, by their paths
  names_model.py   the model of enums, read from tools/names/*.names; names.py: all their files
  name_source.py, name_specs.py  a closed enum's type; its texts, and lemmas about them
  open_source.py, open_specs.py  an extensible enum's type; its texts, and the proofs of what is read and copied
  integers.py   the integer types as members
  output.py     writes files, or compares them with the checkout
"""
