"""The JSON Schemas that `ciderglen schema --format json-schema` writes, on the golden documents, by Debian's python3-jsonschema.

Each schema has to be one of the draft 2020-12. Each golden document of a kind, and of each record below it, has to be accepted by the
schema exactly if its row says that it is read; and those of a kind exactly if `ciderglen check --kind KIND` ends with 0. Documents that no
JSON Schema can tell apart are counted and passed over: what is no JSON or nests deeper than 127, objects with a name twice, and numerals with
a fraction or an exponent that are whole, as 1.0, or -0. It prints a line for each document that is judged otherwise, and for each record that no kind has.
"""
import glob
import json
import os
import subprocess
import sys

from repository import TOP, program_of

KINDS = ("manifest", "index", "config", "artifact", "layout", "descriptor", "error", "repositories", "tags", "reference", "spec", "state", "process-state", "features")
DATA = os.path.join(TOP, "crates/oci_tests/data/golden")
DEPTH = 127
# the frames of the validator on the deepest document
FRAMES = 20000


class Untold(Exception):
    """What no JSON Schema can tell apart."""


def rows(record):
    """The documents of a record, and whether each is read."""
    found, text = [], []
    with open(os.path.join(DATA, f"{record}.rows"), encoding="utf-8") as file:
        for line in file:
            if line.startswith(("= ", "! ")):
                found.append(("".join(text), line[0] == "="))
                text = []
            elif text or (line.strip() and not line.startswith("#")):
                text.append(line)
    return found


def depth(value):
    if isinstance(value, dict):
        return 1 + max(map(depth, value.values()), default=0)
    return 1 + max(map(depth, value), default=0) if isinstance(value, list) else 0


def whole(text):
    if text == "-0":
        raise Untold
    return int(text)


def fraction(text):
    number = float(text)
    if number == int(number):
        raise Untold
    return number


def no_number(text):
    raise Untold


def once(pairs):
    found = dict(pairs)
    if len(found) != len(pairs):
        raise Untold
    return found


def value_of(text):
    """The value of a document; fails with Untold if no JSON Schema can judge it."""
    try:
        value = json.loads(text, parse_int=whole, parse_float=fraction, parse_constant=no_number, object_pairs_hook=once)
    except (ValueError, OverflowError, RecursionError):
        raise Untold from None
    if depth(value) > DEPTH:
        raise Untold
    return value


def written(program, kind):
    """The JSON Schema of a kind."""
    done = subprocess.run([program, "schema", "--format", "json-schema", kind], stdout=subprocess.PIPE, check=True)
    return json.loads(done.stdout)


def accepted_by_program(program, kind, text):
    return subprocess.run([program, "check", "--kind", kind, "-q"], input=text.encode(), stderr=subprocess.DEVNULL, check=False).returncode == 0


def judge(validator, name, found, also):
    """Compares a schema with rows: how many it judges as they say, how many it cannot judge, and what it judges otherwise."""
    right, untold, wrong = 0, 0, []
    for text, is_read in found:
        try:
            value = value_of(text)
        except Untold:
            untold += 1
            continue
        verdict = validator.is_valid(value)
        if verdict != is_read or (also and also(text) != is_read):
            wrong.append(f"{name}: {'accepted' if verdict else 'refused'}, and the row says {'read' if is_read else 'refused'}: {text.strip()}")
        else:
            right += 1
    return right, untold, wrong


def options_of(parser):
    parser.add_argument("--program", default=program_of("ciderglen"), help="the program")


def run(options):
    try:
        from jsonschema import Draft202012Validator
    except ImportError:
        sys.exit("tools/peers schemas needs Debian's python3-jsonschema")
    sys.setrecursionlimit(FRAMES)
    right, untold, wrong, seen = 0, 0, [], set()
    for kind in KINDS:
        schema = written(options.program, kind)
        Draft202012Validator.check_schema(schema)
        root = schema["$ref"].rpartition("/")[2]
        for record in schema["$defs"]:
            is_root = record == root
            if not os.path.exists(os.path.join(DATA, f"{record}.rows")) or (record in seen and not is_root):
                continue
            seen.add(record)
            validator = Draft202012Validator({**schema, "$ref": f"#/$defs/{record}"})
            also = (lambda text, kind=kind: accepted_by_program(options.program, kind, text)) if is_root else None
            one, two, three = judge(validator, record, rows(record), also)
            right, untold, wrong = right + one, untold + two, wrong + three
    missing = sorted({os.path.basename(path)[:-len(".rows")] for path in glob.glob(f"{DATA}/*.rows")} - seen)
    print("".join(f"{it}\n" for it in wrong), end="")
    print("".join(f"{it}: in no kind of documents\n" for it in missing), end="")
    print(f"{right} judged as their rows say, {untold} that no JSON Schema can judge, {len(wrong)} otherwise")
    return 1 if wrong else 0
