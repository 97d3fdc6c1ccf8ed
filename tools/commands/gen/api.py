"""The pages docs/API.md on what the crates offer, and docs/SCHEMA.md on what documents hold.

docs/API.md is made of the sources in crates/ (tools/pages/api.py), docs/SCHEMA.md of tools/records, tools/names and the prose in
tools/pages/schema.md (tools/pages/schema.py). Where a page lacks something, a name that is re-exported and that nothing declares, or a
record that the prose does not name, it is reported, and the status is 1. With --check it prints the first lines that differ.
"""
import sys

from pages import api, schema
from repository import brought_up_to_date

PAGES = {"docs/API.md": api.page, "docs/SCHEMA.md": schema.page}


def run(options):
    texts, status = {}, 0
    for name, page in PAGES.items():
        texts[name], lacking = page()
        print("".join(f"{name}: {what}\n" for what in lacking), end="", file=sys.stderr)
        status |= bool(lacking)
    return status | brought_up_to_date(texts, options.check)
