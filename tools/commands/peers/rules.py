"""The rules, and what others say of documents, and what others write.

  tools/peers rules [image] [runtime] [written] [oracle] [--count N] [--seed S] [--program PATH] [--ciderglen PATH] [--keep FOLDER]

  image    image-spec's own schema tests: each document that only rules refuse breaks the rule that tools/rules/peers.rows names, at its
           pointer; each that is to pass keeps every rule of level must, as do the examples of the texts
  runtime  runtime-tools' validation cases: each that rules decide breaks its rule; each that is to pass keeps every rule of level must,
           once what its check does not look at was added
  written  documents that umoci, skopeo, buildah, podman, runc and crun write, made anew with many options: none breaks its schema or a
           rule of level must or stated, by `ciderglen check --rules`, but where a line `wrong TOOL KIND RULE REASON` of
           tools/rules/peers.rows says why the tool is wrong. A line says which document does, and which command wrote it; the words
           in brackets are those of commands before it. What else is found is counted. The configurations of podman and
           buildah are those that they give a runtime, which is a script, so that they are written also where no container can run.
           TOOL-docker is an image in Docker's format. --keep leaves the documents in FOLDER, and `rows` with a row for each: the
           file, the tool with its version, the kind, and the command
  oracle   runtime-tools' validator over --count changed configurations (10,000; --seed 1): for the rules that both decide, every
           difference has a reason in tools/comparisons/explained.py

Without a name all four are run. Each prints a line for each thing that is not as it has to be, and a last line with its counts; the
status is 1 if there is any. It wants Debian's packages golang-go, golang-github-opencontainers-runtime-tools-dev,
golang-github-opencontainers-image-spec-dev, umoci, skopeo, buildah, podman, runc and crun, and root for all but the first two. Rules are
asked of --program, or of `oci_tests` as `rt run` built it, or else as `rt try` compiles it, for a thousand documents at most; what tools
write, of --ciderglen, or of `ciderglen` as `rt run` built it.
"""
import argparse
import collections
import functools
import json
import os
import tempfile

from comparisons import changes, checker, explained, image_cases, oracle, runtime_cases, written
from repository import program_of, read, rows as rows_of

CHECKS = False
VOLUME = "\\\\?\\Volume{ec84d99e-3f02-11e7-ac6c-00155d7682cf}\\"


def table():
    """The rows of tools/rules/peers.rows, by their first word."""
    out = collections.defaultdict(list)
    for line in rows_of("tools/rules/peers.rows"):
        word, _, rest = line.partition(" ")
        out[word].append(rest)
    return out


class Count:
    """What was counted, and what is not as it has to be."""

    def __init__(self, name):
        self.name, self.wrong, self.counted = name, 0, collections.Counter()

    def fault(self, text):
        self.wrong += 1
        print(f"{self.name}: {text}")

    def end(self):
        print(f"{self.name}: " + ", ".join(f"{count} {what}" for what, count in self.counted.items()) + f"; {self.wrong} wrong")
        return self.wrong


def musts(found):
    return [it for it in found if it.level == "must"]


def one_line(text):
    """A JSON text on one line; nothing where it is none."""
    try:
        return json.dumps(json.loads(text), ensure_ascii=False)
    except ValueError:
        return None


def image(options, rows):
    """image-spec's schema tests, and the examples of its texts."""
    count, expected = Count("image"), {}
    for row in rows["image"]:
        name, rule, pointer = row.split()
        expected[name] = (rule, pointer)
    cases = [it for it in image_cases.cases() if one_line(it[2])] + [(name, kind, text, False) for name, kind, text in image_cases.examples() if one_line(text)]
    answers = yield [(kind, "-", one_line(text)) for _, kind, text, _ in cases]
    for (name, _, _, fails), found in zip(cases, answers):
        if name in expected:
            count.counted["refused by rules alone"] += 1
            rule, pointer = expected.pop(name)
            if not any(it.rule == rule and it.pointer == pointer for it in found):
                count.fault(f"{name}: not {rule} at {pointer}: {found}")
        elif not fails:
            count.counted["to pass"] += 1
            for it in musts(found):
                count.fault(f"{name}: is to pass, and breaks {it}")
        else:
            count.counted["refused by the schema"] += 1
    for name in expected:
        count.fault(f"{name}: no such document")
    yield count.end()


def completed(row):
    """The document of a case with what its check does not look at, if that is missing."""
    spec, test, platform = dict(row["spec"] or {}), row["test"], row["platform"] or "linux"
    versions = test in ("TestCheckSemVer", "TestCheckMandatoryFields") or (test == "TestJSONSchema" and row["expected"])
    if not spec.get("ociVersion") and not versions:
        spec["ociVersion"] = "1.0.2"
    windows = {"layerFolders": ["C:\\layer"]}
    if platform == "windows":
        if spec.get("windows") and not spec["windows"].get("layerFolders"):
            spec["windows"] = dict(spec["windows"], **windows)
        if test != "TestCheckPlatform" or not row["expected"]:
            spec.setdefault("windows", windows)
    if "root" not in spec and test != "TestCheckRoot":
        spec["root"] = {"path": VOLUME if platform == "windows" else "rootfs"}
    return spec


def runtime(options, rows):
    """runtime-tools' validation cases."""
    count = Count("runtime")
    names = dict(row.split() for row in rows["code"])
    said = [row.split(" ", 1) for row in rows["said"]]
    with tempfile.TemporaryDirectory() as room:
        cases = runtime_cases.cases(room)
    answers = yield [("spec", it["platform"] or "linux", json.dumps(completed(it))) for it in cases]
    for row, found in zip(cases, answers):
        text = row["expected"]
        rule = names.get(text) if row["code"] else next((rule for rule, words in said if words in text), None)
        what = f"{row['test']} {row['platform']} {text[:60]!r} of {json.dumps(row['spec'])[:200]}"
        if not text:
            count.counted["to pass"] += 1
            for it in musts(found):
                count.fault(f"{what}: is to pass, and breaks {it}")
        elif rule and not (rule == "rlimit-type-solaris" and row["platform"] != "solaris"):
            count.counted["refused by rules"] += 1
            if not any(it.rule == rule for it in found):
                count.fault(f"{what}: not {rule}: {found}")
        else:
            count.counted["refused by the schema, the host or for the tool"] += 1
    yield count.end()


@functools.cache
def made():
    """The documents that tools write, made once."""
    with tempfile.TemporaryDirectory() as room:
        os.chmod(room, 0o755)  # a user who is not root writes there too
        return written.documents(os.path.join(room, "written"))


def wrong_tools(rows):
    """Why a tool is wrong: the reason by the tool, the kind and the rule."""
    split = [row.split(" ", 3) for row in rows["wrong"]]
    return {tuple(words[:3]): words[3] for words in split}


def of_tools(options, rows):
    """What tools write."""
    count, seen, known = Count("written"), collections.Counter(), wrong_tools(rows)
    if not os.path.exists(options.ciderglen):
        raise SystemExit(f"{options.ciderglen} is not there: `rt run` makes it")
    documents = made()
    yield []
    with tempfile.TemporaryDirectory() as room:
        folder = options.keep or room
        os.makedirs(folder, exist_ok=True)
        answers = checker.examined([(it.kind, it.text) for it in documents], options.ciderglen, folder)
        with open(os.path.join(folder, "rows"), "w", encoding="utf-8") as file:
            file.writelines(f"{number}.json | {it.row()}\n" for number, it in enumerate(documents))
    for number, (document, findings) in enumerate(zip(documents, answers)):
        count.counted[f"of {document.tool} {document.version}"] += 1
        tool = "docker" if document.tool.endswith("-docker") else document.tool
        for it in findings:
            level = it.get("requirement", it["level"])
            reason = known.get((tool, document.kind, it["rule"]), "")
            seen[(level, document.tool, document.kind, it["rule"], reason)] += 1
            if it["level"] == "error" and not reason:
                count.fault(f"{it['rule']} ({level}) at {it['pointer']}: {it['message']} | {number}.json | {document.row()}")
    for (level, tool, kind, rule, reason), number in sorted(seen.items()):
        print(f"written: {number} times in {tool}'s {kind}: {rule} ({level})" + (f": {reason}" if reason else ""))
    yield count.end()


def bases():
    """Configurations to change: what the tools write, and one with many parts."""
    specs = [json.loads(it.text) for it in made() if it.kind == "spec"]
    more = json.loads(read("tools/rules/oracle.json"))
    return specs + [more["document"]] * 4, [(tuple(way), value) for way, value in more["samples"]]


def by_oracle(options, rows):
    """runtime-tools' validator over changed configurations."""
    count = Count("oracle")
    codes = {rule_of: rule for rule_of, rule in (row.split() for row in rows["code"])}
    both = set(codes.values()) | {rule for _, rule in oracle.SAID} - {"capability-ambient"}
    with tempfile.TemporaryDirectory() as room:
        documents, samples = bases()
        documents = changes.all_changed(documents, samples, options.count, options.seed)
        runtime_cases.cases(room)
        numbers = runtime_cases.code_names(os.path.join(room, "go/src", runtime_cases.PACKAGE), dict(os.environ, GO111MODULE="off", GOPATH=f"{room}/go:/usr/share/gocode"))
        theirs = oracle.answers(room, documents, "linux", {number: codes.get(name, name) for number, name in numbers.items()})
    ours = yield [("spec", "linux", json.dumps(it, ensure_ascii=False)) for it in documents]
    kinds = collections.Counter()
    for document, told, found in zip(documents, theirs, ours):
        count.counted["documents"] += 1
        if told in (["unread"], ["panic"]):
            count.counted[f"{told[0]} by the validator"] += 1
            continue
        told, listed = set(told) & both, {it.rule for it in found} & both
        for rule in told | listed:
            count.counted["rules broken for one or both"] += 1
            side = "theirs" if rule in told - listed else "ours" if rule in listed - told else ""
            if not side:
                count.counted["for both"] += 1
                continue
            reason = explained.reason(rule, side, document)
            if reason:
                kinds[(rule, side, reason)] += 1
            else:
                count.fault(f"{rule}, {side}: {json.dumps(document)}")
    for (rule, side, reason), number in sorted(kinds.items()):
        print(f"oracle: {number} times {rule} by {side} alone: {reason}")
    yield count.end()


PARTS = {"image": image, "runtime": runtime, "written": of_tools, "oracle": by_oracle}


def compared(options, rows):
    """Runs the parts, with one run of the program for the documents of all; returns how many things are not as they have to be."""
    parts = [PARTS[it](options, rows) for it in options.parts or PARTS]
    documents = [next(part) for part in parts]
    answers = checker.check([it for each in documents for it in each], options.program)
    wrong = 0
    for part, each in zip(parts, documents):
        wrong += part.send(answers[: len(each)])
        answers = answers[len(each) :]
    return wrong


def part(name):
    if name not in PARTS:
        raise argparse.ArgumentTypeError(f"the parts are {', '.join(PARTS)}")
    return name


def options_of(parser):
    parser.add_argument("parts", nargs="*", type=part, metavar="PART")
    parser.add_argument("--count", type=int, default=10000)
    parser.add_argument("--seed", type=int, default=1)
    parser.add_argument("--program", default="")
    parser.add_argument("--ciderglen", default=program_of("ciderglen"))
    parser.add_argument("--keep", metavar="FOLDER", default="")


def run(options):
    return 1 if compared(options, table()) else 0
