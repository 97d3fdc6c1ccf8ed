"""The copies of policies/*.toml in crates/oci_tests/data/rules, where their golden rows are.

It copies those that differ, and prints each that has no golden rows; the status is then 1.
"""
import os

import golden
from repository import TOP, at, brought_up_to_date, read


def run(options):
    names = [it for it in sorted(os.listdir(f"{TOP}/policies")) if it.endswith(".toml")]
    lacking = [it for it in names if not os.path.exists(at(f"{golden.DATA}/rules/{it.removesuffix('.toml')}.rows"))]
    print("".join(f"{it} has no golden rows\n" for it in lacking), end="")
    return brought_up_to_date({f"crates/{golden.NAME}/data/rules/{it}": read(f"policies/{it}") for it in names}, options.check) or bool(lacking)
