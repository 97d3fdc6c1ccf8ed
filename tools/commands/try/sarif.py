"""Checks logs in SARIF 2.1.0 by the rules of the standard: those given, or what `ciderglen` writes.

The standard's own JSON schema is in no package of Debian, so the objects with their members, types and bounds are described in
tools/data/sarif.objects, with their sections, and the rules that no such table says are here. The members and which of them are required
are compared with the classes of Debian's python3-sarif-python-om, which were made from that schema, where they are there. Without a LOG the
built program writes logs of `check` over all files of tests/sessions and tests/documents, with and without rules, of files with odd names
and of files that are missing, and of `verify` over image layouts that are right, broken and have odd names; and the logs in tests/sessions
are checked. Each rule is tried too: a right log is changed in ways that have to be found. A log of another tool is checked as any other.
It prints `LOG: POINTER: what is wrong (section)`, and ends in `N passed, M failed`; the status is 0 if nothing failed.
"""
import copy
import glob
import json
import os
import re
import shutil
import subprocess
import sys
import tempfile
import urllib.parse

from repository import TOP, at, program_of, read, rows

CHECKS = False
OBJECTS, CLASSES = "tools/data/sarif.objects", "/usr/lib/python3/dist-packages/sarif_om"
# the names of objects that are shorter in the table, and a member that had another name in the draft that the classes are from
FULL_NAMES = {"log": "sarifLog", "descriptor": "reportingDescriptor", "configuration": "reportingConfiguration", "text": "multiformatMessageString",
              "descriptorReference": "reportingDescriptorReference"}
RENAMED = {("suppression", "state"): "status"}
# characters of RFC 3986: those of a path, a query and a fragment, or escaped ones
CHARACTERS = r"(?:[A-Za-z0-9._~!$&'()*+,;=:@/?-]|%[0-9A-Fa-f]{2})*"
SCHEME = r"[A-Za-z][A-Za-z0-9+.-]*:"
STRINGS = {
    "uri": (rf"(?:{SCHEME})?{CHARACTERS}(?:\[[0-9A-Fa-f:.]*\]{CHARACTERS})?(?:#{CHARACTERS})?", "no URI reference (RFC 3986)", "3.10"),
    "guid": (r"[0-9a-fA-F]{8}-[0-9a-fA-F]{4}-[1-5][0-9a-fA-F]{3}-[89abAB][0-9a-fA-F]{3}-[0-9a-fA-F]{12}", "no GUID", "3.5.3"),
    "time": (r"\d{4}-\d\d-\d\dT\d\d:\d\d(:\d\d(\.\d+)?)?Z", "no date and time in UTC", "3.9"),
    "language": (r"[a-z]{2,3}(-[A-Za-z]{2,4})?", "no language", "3.14.7"),
}
# what a layout may lack
MISSING = r"oci-layout|index\.json|blobs/\w+/\w+"
BEGINNING = '{"$schema":"https://json.schemastore.org/sarif'


class Member:
    """What an object may have: the type of a member, and whether it is required."""

    def __init__(self, words):
        self.name, self.type, self.is_required = words[0], words[1], words[2:] == ["required"]


def objects():
    """The objects by their names, each with its section and its members by their names."""
    found, members = {}, {}
    for row in rows(OBJECTS):
        words = row.split()
        if row.startswith(" "):
            members[words[0]] = Member(words)
        else:
            members = {}
            found[words[0]] = (words[1], members)
    return found


class Log:
    """A log that is checked: what is wrong with it, each with its place and the section that says so."""

    def __init__(self, value):
        self.objects, self.wrong = objects(), []
        self.check("log", value, "", "3.13")

    def add(self, pointer, what, section):
        self.wrong.append(f"{pointer or '/'}: {what} (section {section})")

    def check(self, kind, value, pointer, section):
        """Looks for what is wrong with a value of a type."""
        if kind.endswith(("[]", "[]!")):
            self.check_array(kind, value, pointer, section)
        elif kind.endswith("{}"):
            self.check_members(kind[:-2], value, pointer, section)
        elif kind in self.objects:
            self.check_object(kind, value, pointer)
        elif not is_of(kind, value):
            self.add(pointer, f"expected {kind}, found {json.dumps(value)[:60]}", section)
        elif kind in STRINGS:
            pattern, what, where = STRINGS[kind]
            if not re.fullmatch(pattern, value):
                self.add(pointer, f"{what}: {json.dumps(value)}", where)

    def check_array(self, kind, value, pointer, section):
        if not isinstance(value, list):
            self.add(pointer, "expected an array", section)
            return
        texts = [json.dumps(it, sort_keys=True) for it in value]
        if kind.endswith("!") and len(set(texts)) < len(texts):
            self.add(pointer, "equal items", "3.7.3")
        for number, item in enumerate(value):
            self.check(kind.rstrip("!").removesuffix("[]"), item, f"{pointer}/{number}", section)

    def check_members(self, kind, value, pointer, section):
        if not isinstance(value, dict):
            self.add(pointer, "expected an object", section)
            return
        for name, item in value.items():
            self.check(kind, item, f"{pointer}/{name}", section)

    def check_object(self, kind, value, pointer):
        section, members = self.objects[kind]
        if not isinstance(value, dict):
            self.add(pointer, "expected an object", section)
            return
        for member in members.values():
            if member.is_required and member.name not in value:
                self.add(pointer, f"{member.name} is missing", section)
        for name, item in value.items():
            if name in members:
                self.check(members[name].type, item, f"{pointer}/{name}", section)
            else:
                self.add(pointer, f"{name} is no member of it", section)
        if kind in RULES:
            RULES[kind](self, value, pointer)
        if isinstance(value.get("properties"), dict):
            of_bag(self, value["properties"], pointer)


def is_of(kind, value):
    """Whether a value is of a type that is no object or array of the table."""
    if kind in ("bag", "other"):
        return isinstance(value, dict)
    if kind == "boolean":
        return isinstance(value, bool)
    if kind in ("integer", "number") or kind.endswith(".."):
        right = isinstance(value, (int, float) if kind == "number" else int) and not isinstance(value, bool)
        return right and (not kind.endswith("..") or value >= int(kind[:-2]))
    return isinstance(value, str) and (kind == "string" or kind in STRINGS or value in kind.split("|"))


def of_run(log, run, pointer):
    """Rules of a run: a result names a rule of the tool by its place, and that rule has the result's name; names of rules are unique."""
    known = [it.get("id") for it in run.get("tool", {}).get("driver", {}).get("rules", [])]
    if len(set(known)) < len(known):
        log.add(f"{pointer}/tool/driver/rules", "two rules of one id", "3.19.23")
    for number, result in enumerate(run.get("results") or []):
        name, index = result.get("ruleId"), result.get("ruleIndex", -1)
        where = f"{pointer}/results/{number}"
        if index >= len(known):
            log.add(where, f"ruleIndex {index}, of {len(known)} rules", "3.27.6")
        elif index >= 0 and name is not None and known[index] not in (name, name.rpartition("/")[0]):
            log.add(where, f"ruleId {name}, and the rule of ruleIndex is {known[index]}", "3.27.6")
        elif index < 0 and known and "rule" not in result:
            log.add(where, "no ruleIndex, though the tool lists rules", "3.27.6")
    bases = run.get("originalUriBaseIds", {})
    for name in {it.get("uriBaseId") for it in artifacts_in(run)} - {None, *bases}:
        # (a base that the log does not define is one that its reader knows)
        if not re.fullmatch(r"[A-Z_%]+[A-Z0-9_%]*", name):
            log.add(pointer, f"uriBaseId {name} is defined nowhere", "3.4.4")


def artifacts_in(value):
    """All objects with a URI in a value."""
    if isinstance(value, list):
        return [found for it in value for found in artifacts_in(it)]
    if isinstance(value, dict):
        return [value] * ("uri" in value) + [found for it in value.values() for found in artifacts_in(it)]
    return []


def of_result(log, result, pointer):
    """Rules of a result: it names its rule; it has a level only where it is a failure; its locations have numbers of their own."""
    if "ruleId" not in result and "id" not in result.get("rule", {}) and "index" not in result.get("rule", {}):
        log.add(pointer, "neither ruleId nor rule", "3.27.5")
    if result.get("kind", "fail") != "fail" and result.get("level", "none") != "none":
        log.add(pointer, f"level {result['level']} of a result of kind {result['kind']}", "3.27.10")
    places = [it for it in [*result.get("locations", []), *result.get("relatedLocations", [])] if isinstance(it, dict)]
    numbers = [it["id"] for it in places if it.get("id", -1) >= 0]
    if len(set(numbers)) < len(numbers):
        log.add(pointer, "two locations of one id", "3.28.2")


def of_message(log, message, pointer):
    if "text" not in message and "id" not in message:
        log.add(pointer, "neither text nor id", "3.11.2")


def of_physical_location(log, location, pointer):
    if "artifactLocation" not in location and "address" not in location:
        log.add(pointer, "neither artifactLocation nor address", "3.29.2")
    if "contextRegion" in location and "region" not in location:
        log.add(pointer, "contextRegion without region", "3.29.5")


def of_artifact_location(log, location, pointer):
    """Rules of a URI reference: a relative one begins with no scheme, has / between names, and alone may have a base."""
    uri = location.get("uri")
    if uri is None:
        if location.get("index", -1) < 0:
            log.add(pointer, "neither uri nor index", "3.4.2")
    elif isinstance(uri, str) and re.match(SCHEME, uri):
        if "uriBaseId" in location:
            log.add(pointer, "uriBaseId beside an absolute URI", "3.4.4")
    elif isinstance(uri, str) and ".." in uri.split("/")[1:]:
        log.add(pointer, f"a path that is not normalized: {json.dumps(uri)}", "3.10.2")


def of_region(log, region, pointer):
    """Rules of a region: it begins somewhere, and ends where it begins or later."""
    if not any(isinstance(region.get(it), int) and region[it] >= 0 for it in ("startLine", "charOffset", "byteOffset")):
        log.add(pointer, "neither startLine nor charOffset nor byteOffset", "3.30.4")
    if not all(isinstance(it, int) for name, it in region.items() if name.endswith(("Line", "Column"))):
        return
    if {"startColumn", "endLine", "endColumn"} & set(region) and "startLine" not in region:
        log.add(pointer, "a line or column without startLine", "3.30.5")
    first, last = region.get("startLine", 1), region.get("endLine", region.get("startLine", 1))
    if last < first or last == first and region.get("endColumn", sys.maxsize) < region.get("startColumn", 1):
        log.add(pointer, "it ends before it begins", "3.30.7")


def of_bag(log, bag, pointer):
    tags = bag.get("tags", [])
    if not isinstance(tags, list) or any(not isinstance(it, str) for it in tags) or len(set(tags)) < len(tags):
        log.add(f"{pointer}/properties/tags", "no array of different strings", "3.8.2")


RULES = {
    "run": of_run, "result": of_result, "message": of_message, "physicalLocation": of_physical_location, "artifactLocation": of_artifact_location,
    "region": of_region,
}


def wrong_in(text):
    """What is wrong with a log."""
    try:
        return Log(json.loads(text)).wrong
    except ValueError as error:
        return [f"not JSON: {error}"]


# a right log with what logs of `ciderglen` have or may have
RIGHT = {"$schema": "https://json.schemastore.org/sarif-2.1.0.json", "version": "2.1.0", "runs": [{
    "tool": {"driver": {"name": "a", "version": "1", "rules": [{"id": "r", "defaultConfiguration": {"level": "error"}, "help": {"text": "h"}}, {"id": "s"}]}},
    "columnKind": "unicodeCodePoints",
    "invocations": [{"executionSuccessful": False, "toolExecutionNotifications": [{"level": "error", "message": {"text": "m"}}]}],
    "results": [{"ruleId": "r", "ruleIndex": 0, "level": "error", "message": {"text": "m"}, "partialFingerprints": {"a/v1": "f"},
                 "locations": [{"id": 1, "physicalLocation": {"artifactLocation": {"uri": "a%20b/c.json"}, "region": {"startLine": 2, "startColumn": 1}},
                                "logicalLocations": [{"fullyQualifiedName": "/a"}]}],
                 "relatedLocations": [{"id": 2, "physicalLocation": {"artifactLocation": {"uri": "d"}}, "message": {"text": "m"}}]}]}]}
RUN, RESULT = ("runs", 0), ("runs", 0, "results", 0)
PLACE = (*RESULT, "locations", 0, "physicalLocation")
URI, REGION = (*PLACE, "artifactLocation", "uri"), (*PLACE, "region")
# a member of that log with another value, None where it is taken away, and the section that says that this is wrong
CHANGES = [
    (("version",), "2.1", "3.13"), (("runs",), None, "3.13"), (("run",), [], "3.13"), ((*RUN, "tool"), None, "3.14"),
    ((*RUN, "tool", "driver", "name"), None, "3.19"), ((*RUN, "tool", "driver", "rules", 1, "id"), "r", "3.19.23"),
    ((*RUN, "tool", "driver", "rules", 1), {}, "3.49"),
    ((*RUN, "tool", "driver", "rules", 0, "help"), "h", "3.12"), ((*RUN, "tool", "driver", "rules", 0, "defaultConfiguration", "level"), "must", "3.50"),
    ((*RUN, "tool", "driver", "informationUri"), "a b", "3.10"), ((*RUN, "columnKind"), "bytes", "3.14"),
    ((*RUN, "invocations", 0, "executionSuccessful"), None, "3.20"), ((*RUN, "invocations", 0, "endTimeUtc"), "2026-11-30 12:00", "3.9"),
    ((*RUN, "invocations", 0, "toolExecutionNotifications", 0, "message"), None, "3.58"),
    ((*RESULT, "message"), None, "3.27"), ((*RESULT, "message"), {}, "3.11.2"), ((*RESULT, "ruleId"), None, "3.27.5"), ((*RESULT, "ruleId"), "s", "3.27.6"),
    ((*RESULT, "ruleIndex"), 2, "3.27.6"), ((*RESULT, "ruleIndex"), None, "3.27.6"), ((*RESULT, "level"), "must", "3.27"), ((*RESULT, "kind"), "pass", "3.27.10"),
    ((*RESULT, "partialFingerprints", "a/v1"), 1, "3.27"), ((*RESULT, "relatedLocations", 0, "id"), 1, "3.28.2"), ((*RESULT, "locations"), {}, "3.27"),
    ((*PLACE, "artifactLocation"), None, "3.29.2"), (URI, None, "3.4.2"), (URI, "a b", "3.10"), (URI, "a\x1bb", "3.10"), (URI, "\u00e4", "3.10"),
    (URI, "a%2", "3.10"), (URI, "a\\b", "3.10"), (URI, "a/../b", "3.10.2"), ((*REGION, "startLine"), 0, "3.30"), ((*REGION, "startLine"), None, "3.30.4"),
    ((*REGION, "endLine"), 1, "3.30.7"), ((*REGION, "startColumn"), "1", "3.30"), ((*RESULT, "relatedLocations"), [{"id": -1}, {"id": -1}], "3.7.3"),
    ((*RESULT, "guid"), "1", "3.5.3"), ((*RESULT, "properties"), {"tags": ["a", "a"]}, "3.8.2"),
]


def changed(path, value):
    """The right log with a change."""
    log = copy.deepcopy(RIGHT)
    inner = log
    for name in path[:-1]:
        inner = inner[name]
    if value is None:
        del inner[path[-1]]
    else:
        inner[path[-1]] = value
    return log


def tried_rules():
    """The right log, and each change of it: what is not as it should be."""
    yield "a right log", [f"is not accepted: {it}" for it in wrong_in(json.dumps(RIGHT))]
    for path, value, section in CHANGES:
        wrong = wrong_in(json.dumps(changed(path, value)))
        yield f"{path} = {value!r}", [] if any(f"(section {section})" in it for it in wrong) else [f"section {section} does not find it: {wrong}"]


def unnamed_in(text, words, folder):
    """The URIs of a log of `check` or `verify` that are not those of files: what was named to one, and what the other found in the layout."""
    for location in artifacts_in(json.loads(text)):
        parts = urllib.parse.urlsplit(location["uri"])
        name = urllib.parse.unquote(parts.path)
        known = name in words if words[0] == "check" else os.path.lexists(f"{folder}/{words[-1]}/{name}") or re.fullmatch(MISSING, name)
        if not known or parts.scheme or parts.query or parts.fragment:
            yield f"{ascii(location['uri'])} is no URI of a file that was read (section 3.4.3)"


def logs_of(program):
    """The logs that the program writes: the words that ask for each, and what is wrong with it."""
    with tempfile.TemporaryDirectory() as folder:
        shutil.copytree(at("tests/sessions/files"), f"{folder}/files")
        shutil.copytree(at("tests/documents"), f"{folder}/files/documents")
        for name in ("with space.json", "per%cent.json", "a:b.json", "\u00e4\u4e2d.json", "a\x1b[2J\nb\u202ec.json", "back\\slash#?.json"):
            shutil.copy(at("tests/sessions/files/bad-size.json"), f"{folder}/files/{name}")
        script = '. ./layouts.sh; layout good \'"manifests":[]\'; layout odd \'"manifests":[{"mediaType":"text/plain","digest":"sha256:ab","size":1}]\'; ' \
            'mkdir -p odd/blobs/sha256; touch "$(printf \'odd/blobs/sha256/a\\033[31m\\n %b\')"; rm -r empty 2> /dev/null; mkdir empty'
        subprocess.run(["sh", "-c", script], cwd=f"{folder}/files", check=True)
        names = sorted(os.path.relpath(path, f"{folder}/files") for path in glob.glob(f"{folder}/files/**/*.json", recursive=True))
        for words in (["check", *names], ["check", "--rules", "--level=host", "--unknown=warn", *names], ["check", "none.json", "bad-size.json", "image"],
                      ["verify", "image"], ["verify", "good"], ["verify", "odd"], ["verify", "empty"], ["verify", "--strict", "good"]):
            done = subprocess.run([os.path.abspath(program), words[0], "--format=sarif", *words[1:]], cwd=f"{folder}/files", stdin=subprocess.DEVNULL,
                                  stdout=subprocess.PIPE, stderr=subprocess.DEVNULL, check=False)
            text = done.stdout.decode()
            yield f"ciderglen {' '.join(words)[:60]}", [*wrong_in(text), *unnamed_in(text, words, f"{folder}/files")]


def compared_members():
    """The members of each object beside those of the class of Debian's package."""
    if not os.path.isdir(CLASSES):
        print("python3-sarif-python-om: skipped, it is not there")
        return
    for kind, (section, members) in objects().items():
        name = re.sub("([A-Z])", r"_\1", FULL_NAMES.get(kind, kind)).lower()
        with open(f"{CLASSES}/_{name}.py", encoding="utf-8") as file:
            found = re.findall(r'attr\.ib\((default=)?.*?metadata=\{"schema_property_name": "([^"]+)"\}', file.read())
        theirs = {(RENAMED.get((kind, it), it), not default) for default, it in found}
        ours = {(it.name, it.is_required) for it in members.values()}
        yield f"members of {kind}", [f"{it} is only in one of {OBJECTS} and {CLASSES} (section {section})" for it, _ in sorted(theirs ^ ours)]


def logs_in_sessions():
    for path in sorted(glob.glob(f"{TOP}/tests/sessions/*.session")):
        for number, line in enumerate(read(path).split("\n"), 1):
            if line.startswith(BEGINNING):
                yield f"{os.path.relpath(path, TOP)}:{number}", line


def options_of(parser):
    parser.add_argument("--program", metavar="FILE", default=program_of("ciderglen"), help="the program whose logs are checked")
    parser.add_argument("logs", nargs="*", metavar="LOG", help="a log to check, in place of those of the program")


def run(asked):
    if asked.logs:
        checked = [(name, wrong_in(open(name, encoding="utf-8").read())) for name in asked.logs]
    elif os.path.exists(asked.program):
        checked = [*tried_rules(), *compared_members(), *((name, wrong_in(text)) for name, text in logs_in_sessions()), *logs_of(asked.program)]
    else:
        print(f"{asked.program} is not there: build it by `rt run` in crates/ciderglen, or by `rt ci`")
        return 2
    for name, wrong in checked:
        for it in wrong:
            print(f"{ascii(name)[1:-1]}: {it}")
    failed = sum(bool(wrong) for _, wrong in checked)
    print(f"{len(checked) - failed} passed, {failed} failed")
    return 1 if failed else 0
