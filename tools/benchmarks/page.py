"""The page with the tables."""
from repository import with_table, write as write_file

PAGE = "docs/BENCHMARKS.md"


def write(name, lines):
    """Puts a table into the page."""
    write_file(PAGE, with_table(PAGE, name, "\n".join(["", *lines, "", ""])))
