"""Imports of a record's source files."""
from generator.records import snake
from generator.text import called_in, used, uses

JOINS = [f"try_join{n}" for n in range(2, 6)]
# functions and types of `oci_model`: those that are called with types, by name alone, and the others
TYPED_CALLS = ["copy_optional_as", "read_members", "write_optional_as"]
READERS = ["As", "Defaulted", "Nullable", "Optional", "Required", "UnlessEmpty"]
CALLS = ["copy_optional", "write_optional", "write_required"]
# kinds of members that are in another crate than `oci_model`
KIND_CRATES = {"Caps": "oci_text", "CpuTexts": "oci_text"}


def model_calls(body):
    """What a body takes from `oci_model` to read, write and copy members."""
    return ["OciMember"] * (".copy(alloc)" in body) + called_in(CALLS, body) + used(["ObjectWriter", "nested"] + JOINS, body)


def imports(r, body, schema):
    """The imports of a file of the record's, whose code names what it takes from the crates below."""
    held = " ".join(m.type.rust for m in r.members)
    crates = {"oci_base": used(["OciSpecError", "Result", "UninitializedFieldError"], body)}
    crates["oci_model"] = [*schema] + used(TYPED_CALLS + READERS, body) + called_in(["equal_optional_values", "write_nullable", "write_unless_empty"], body)
    crates["oci_text"] = used(["Digest"], body) + used(["Arch", "MediaType", "Os"], held) + used(["Capability"], held)
    for kind in used(sorted({m.type.kind for m in r.members if m.type.kind}), body):
        crates[KIND_CRATES.get(kind, "oci_model")].append(kind)
    local = []
    parts = [(name, r.book.names[name]) for name in r.enums()] + r.parts()
    for name, crate in parts:
        if crate == r.book.crate:
            local.append(f"use crate::{snake(name)}::{name};\n")
        else:
            crates.setdefault(crate, []).append(name)
    for path, items in r.book.takes.items():
        if path.startswith("crate::"):
            local.append(uses(path, used(items, body)))
        else:
            crates.setdefault(path, []).extend(used(items, body))
    return "".join(sorted(local)) + "".join(uses(c, crates[c]) for c in sorted(crates))
