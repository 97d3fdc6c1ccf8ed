"""Generates the books of rules, their definitions, their golden rows and docs/RULES.md from tools/rules/*.rules.

  expressions.py  the words of a description: places, conditions, tests
  model.py        the model: lists, sets, books, rules, read from tools/rules/*.rules
  shapes.py       whether places stand in the records of tools/records
  specs.py        the definitions of a file of rules
  source.py       the constants of the code
  kinds.py        the books of each kind; that each place stands in the shape of its documents
  examples.py     of each rule a document that breaks it beside one that keeps it, for people
  rows.py         golden rows: whole documents from a base and changes of it; which rules have none
  pages.py        docs/RULES.md
"""
