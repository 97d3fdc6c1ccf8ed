"""The golden tables of crates/oci_tests, from the source of the original crate and the kernel's numbers.

oci_test_tables and oci_test_tables compare them. UPSTREAM is the folder `src` of the crate oci-spec 0.10.0. It writes data/tables/*.rows
and two parts of stdout.

The rows say what the crate's source says: nothing is taken from this project. `kernel.values`, written by hand, has the names and
numbers of the kernel's headers and of libseccomp. `stdout` is what the program prints where it finds what the rows say, except for the
rows of `differences` and `defaults.differences`, written by hand: `TABLE: ROW; here ROW | reason`. What `get_rootless_mounts` and the two calls `rootless` change of the
defaults is in tools/tables/defaults.py by name, with the texts from the source.
"""
import json
import re

import golden
from repository import brought_up_to_date, rows as rows_of
from tables import defaults, names, source

TABLES = f"crates/{golden.NAME}/data/tables"
ORIGIN = "# from oci-spec 0.10.0, "
ROOTLESS = (1000, 1001)
DIGESTS = ["abc", ":abc", "A:abc", "x:", "x:a/b", "sha256:ab", f"sha256:{'g' * 64}"]
CALLS = ["get_default_mounts", "get_default_namespaces", "get_default_maskedpaths", "get_default_readonly_paths"]
# each enum with what the program compares, in its order; a kind with a bar is asked of each variant
READ, ALL = ["json", "json|"], ["json", "json|", "display|", "from_str"]
NAMED = [
    ("LinuxNamespaceType", ALL + ["number|", "kernel|"]), ("LinuxDeviceType", ALL), ("LinuxPersonalityDomain", ALL),
    ("MemoryPolicyModeType", ALL + ["header|"]), ("MemoryPolicyFlagType", ALL + ["header|"]),
    ("LinuxSeccompAction", ALL + ["header|", "number|", "as_u32|", "kernel|"]), ("SArch", ALL + ["header|", "number|", "kernel|"]),
    ("LinuxSeccompOperator", ALL + ["header|", "number|", "kernel|"]), ("LinuxSeccompFilterFlag", ALL + ["header|"]),
    ("PosixRlimitType", ALL + ["header|"]), ("IOPriorityClass", ALL + ["header|"]), ("LinuxSchedulerPolicy", ALL + ["header|"]),
    ("LinuxSchedulerFlag", ALL + ["header|"]), ("Capability", READ + ["from_json", "display|", "from_str", "header|"]),
    ("ZOSNamespaceType", ALL), ("ContainerState", READ + ["display|"]), ("ErrorCode", ALL),
    ("ParseError", ["display|"]),
]
EXTENSIBLE = [("MediaType", ["display", "from_text", "docker"]), ("Os", ["display", "from_text"]), ("Arch", ["display", "from_text"]),
              ("DigestAlgorithm", ["display", "from_text", "hexlen"])]
# the groups of the program's defaults, each with the records that are in it: the first that fits `PATH NAME`
CONTROL = "DeviceCgroup|Memory|Cpu|Pids|WeightDevice|ThrottleDevice|BlockIo|HugepageLimit|InterfacePriority|Network|Resources|Rdma"
GROUPS = [
    ("image", "image/"), ("control groups", rf"runtime/linux.rs Linux({CONTROL})$"), ("linux", "runtime/linux"),
    ("process", "runtime/process"), ("platforms", r"runtime/(solaris|vm|zos)\."), ("windows", "runtime/windows"),
    ("features", "runtime/features"), ("containers", "runtime/"), ("distribution", "distribution/"),
]
ORDER = ["enums", "image", "linux", "control groups", "process", "platforms", "windows", "features", "containers", "builders", "calls"]


def kernel_rows():
    """The rows that the kernel's names and numbers make, by enum."""
    found = {}
    for words in map(str.split, rows_of(f"{TABLES}/kernel.values")):
        kind, text = ("kernel", words[3]) if len(words) == 4 else ("header", words[2])
        found.setdefault(words[0], []).append((kind, words[1], text))
    return found


def enum_tables(crate):
    """The rows of each enum."""
    kernel = kernel_rows()
    closed = {name: names.closed(crate, name) + kernel.pop(name, []) for name, _ in NAMED}
    assert not kernel, kernel
    return closed | {name: names.extensible(crate, name) for name, _ in EXTENSIBLE}


def constant_rows(crate):
    """The rows of all public constants: numbers bare, texts in quotes."""
    for path, name, value in crate.constants():
        if f"pub const {name}:" in crate.files[path]:
            number = f"pub const {name}: u32" in crate.files[path]
            yield f"{path.split('/')[0]}::{name}", value if number else json.dumps(value)


def made_rows(crate):
    """The rows of texts that calls make: references by the constants that are not public, and refusals."""
    private = {name: value for _, name, value in crate.constants()}
    whole = f"{private['DOCKER_HUB_DOMAIN']}/{private['DOCKER_HUB_OFFICIAL_REPO_NAME']}/ubuntu:{private['DEFAULT_TAG']}"
    yield "Reference:ubuntu", json.dumps(whole)
    yield f"Reference:{private['DOCKER_HUB_DOMAIN_LEGACY']}/ubuntu", json.dumps(whole)
    for path, name in [("runtime/linux.rs", "LinuxNamespaceType"), ("runtime/zos.rs", "ZOSNamespaceType")]:
        body = crate.body(path, f"impl TryFrom<&str> for {name} ")
        yield f"{name}:other", json.dumps(re.search(r'format!\(\s*"([^"]*)"', body)[1].replace("{namespace}", "other"))
    body = crate.body("runtime/miscellaneous.rs", "impl MountBuilder ")
    yield "MountBuilder", json.dumps(re.search(r'OciSpecError::Other\(\s*"([^"]*)"', body)[1])


def digest_rows(crate):
    """The rows of the texts of `DIGESTS`, each with the error that the source has for it, in the source's order."""
    body = crate.body("image/digest.rs", "impl TryFrom<String> for Digest ")
    shown = re.findall(r'OciSpecError::Other\(\s*(?:format!\(\s*)?"([^"]*)"', body)
    assert len(shown) == len(DIGESTS), shown
    for digest, error in zip(DIGESTS, shown):
        algorithm, _, value = digest.partition(":")
        put_in = {"part": algorithm, "value": value, "found": str(len(value)), "expected": "64"}
        yield f"Digest:{digest}", json.dumps(re.sub(r"\{(\w+)\}", lambda it: put_in[it[1]], error))


def text(value):
    """The compact JSON text, with members in byte order."""
    return json.dumps(value, sort_keys=True, separators=(",", ":"), ensure_ascii=False)


def record_rows(crate, name):
    """The rows of a record: its default, and what its builder makes of nothing, unless that is the default."""
    try:
        default = text(defaults.default(crate, name))
        yield name, default
    except KeyError:
        default = None
    if source.derives(crate.declared[name].attributes, "Builder"):
        try:
            built = text(defaults.built(crate, name))
        except defaults.Refused as field:
            built = f"! {field}"
        if built != default:
            yield f"{name}Builder", built


def default_groups(crate):
    """The groups of defaults, each a list of rows, in the program's order."""
    has_default = [name for name, it in crate.declared.items() if it.kind == "enum" and
                   (source.derives(it.attributes, "Default") or crate.default_body(name))]
    groups = {name: [] for name in ORDER}
    groups["enums"] = [(name, text(defaults.default(crate, name))) for name in has_default]
    for it in crate.declared.values():
        if it.kind == "struct":
            group = next(name for name, pattern in GROUPS if re.match(pattern, f"{it.path} {it.name}"))
            for row in record_rows(crate, it.name):
                groups["builders" if row[0].endswith("Builder") else group].append(row)
    calls = [(name, text(defaults.block(crate, crate.function(name), "Vec"))) for name in CALLS]
    calls.append(("get_rootless_mounts", text(defaults.rootless_mounts(crate))))
    calls.append(("Linux::rootless", text(defaults.rootless_linux(crate, *ROOTLESS))))
    calls.append(("Spec::rootless", text(defaults.rootless_spec(crate, *ROOTLESS))))
    groups["calls"] = calls
    return groups


def differences(name):
    """The lines of a file of differences, by table: what is printed of each, and the kind of its row."""
    found = {}
    for line in rows_of(f"{TABLES}/{name}"):
        shown = line.split(" | ")[0]
        table, rest = shown.split(": ", 1)
        kind = rest.split("here ")[-1].split()[0]
        found.setdefault((table, kind), []).append(shown)
    return found


def printed_tables(crate, tables, constants):
    """What the part of texts, numbers and constants prints."""
    known = differences("differences")
    for name, kinds in NAMED + EXTENSIBLE:
        variants = len([it for it in crate.declared[name].members if it.name != "Other"])
        for kind in kinds:
            bare = kind.rstrip("|")
            count = variants if bare != kind else len([it for it in tables[name] if it[0] == bare])
            if kind != "json|":
                yield from known.pop((name, bare), [])
            yield f"{name}, {bare}: {count} " + ("variants" if bare != kind else "rows")
    numbers = len([it for it in constants if it[1].isdigit()])
    yield f"constants, texts: {len(constants) - numbers} rows"
    yield f"constants, numbers: {numbers} rows"
    yield f"constants, versions: {len([it for it in constants if it[0].endswith('::VERSION')])} rows"
    yield f"constants, made: {len(list(made_rows(crate)))} rows"
    yield f"constants, digests: {len(DIGESTS)} rows"
    assert not known, f"no row for {known}"


def printed_defaults(groups):
    """What the part of defaults prints."""
    known = differences("defaults.differences")
    for name, rows in groups.items():
        for row in rows:
            yield from known.pop(("defaults", row[0]), [])
        yield f"defaults, {name}: {len(rows)} rows"
    yield "defaults, saved: 2 rows"
    assert not known, f"no row for {known}"


def written(crate):
    """The text of each file that is written, by its path."""
    tables, constants, groups = enum_tables(crate), list(constant_rows(crate)), default_groups(crate)
    stdout = golden.with_part(golden.read(), "tables", "\n".join(printed_tables(crate, tables, constants)) + "\n")
    found = {golden.STDOUT: golden.with_part(stdout, "defaults", "\n".join(printed_defaults(groups)) + "\n")}
    for name, rows in tables.items():
        head = f"{ORIGIN}src/{crate.declared[name].path}\n"
        if any(it[0] in ("kernel", "header") for it in rows):
            head += "# kernel, header: from kernel.values\n"
        found[f"{TABLES}/{name}.rows"] = head + "".join(f"{' '.join(row)}\n" for row in rows)
    head = f"{ORIGIN}all of src: the constants; and after these texts that calls make of constants that are not public\n"
    found[f"{TABLES}/constants.rows"] = head + "".join(f"{name} {value}\n" for name, value in [*constants, *made_rows(crate), *digest_rows(crate)])
    head = f"{ORIGIN}all of src: the impls of `Default`, derived or not, the marks of the builders, and the calls\n"
    found[f"{TABLES}/defaults.rows"] = head + "".join(f"{name} {it}\n" for rows in groups.values() for name, it in rows)
    return found


def options_of(parser):
    parser.add_argument("upstream", metavar="UPSTREAM")


def run(options):
    return brought_up_to_date(written(source.Crate(options.upstream)), options.check)
