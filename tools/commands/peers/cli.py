"""`ciderglen check` and other tools on twenty manifests and twenty configurations: the tables of docs/CLI.md.

Each manifest is put into an image layout of its own, as the only manifest of its index, with its right digest and size. A tool accepts it
if it exits with 0: `ciderglen check --kind manifest [--rules] FILE`, `jq empty FILE`, `skopeo inspect oci:DIR:x`, `umoci stat --image
DIR:x`. Of the configurations of a container it asks `ciderglen check --kind spec [--rules] FILE`, `jq empty FILE`, and the validator of
oci-runtime-tool (Debian's package golang-github-opencontainers-runtime-tools-dev; the tool itself is not packaged), which accepts one
if it finds nothing but that the folder `root.path` is not there. A tool that is not installed is an error.
"""
import hashlib
import json
import pathlib
import subprocess
import tempfile

from comparisons import oracle
from repository import brought_up_to_date, program_of, with_table

PAGE = "docs/CLI.md"
# that the folder `root.path` is there, which no document shows
NO_FOLDER = {"code 45063"}
CONFIG = json.dumps({"architecture": "amd64", "os": "linux", "rootfs": {"type": "layers", "diff_ids": []}, "config": {}}).encode()


def digest(data):
    return "sha256:" + hashlib.sha256(data).hexdigest()


def base():
    return {
        "schemaVersion": 2,
        "mediaType": "application/vnd.oci.image.manifest.v1+json",
        "config": {"mediaType": "application/vnd.oci.image.config.v1+json", "digest": digest(CONFIG), "size": len(CONFIG)},
        "layers": [{"mediaType": "application/vnd.oci.image.layer.v1.tar+gzip", "digest": digest(b"layer"), "size": 5}],
        "annotations": {"com.example.key": "b"},
    }


def text_of(change):
    document = base()
    change(document)
    return json.dumps(document).encode()


def cases():
    """What is special about each manifest, and its bytes."""
    good = json.dumps(base())

    def put(path, value):
        def change(document):
            for name in path[:-1]:
                document = document[name]
            document[path[-1]] = value
        return text_of(change)

    def drop(path):
        def change(document):
            for name in path[:-1]:
                document = document[name]
            del document[path[-1]]
        return text_of(change)

    yield "nothing", good.encode()
    yield "an unknown member", put(["note"], 1)
    yield "no `mediaType`", drop(["mediaType"])
    yield "`annotations` is null", put(["annotations"], None)
    yield "`schemaVersion` is 1", put(["schemaVersion"], 1)
    yield "`schemaVersion` is `\"2\"`", put(["schemaVersion"], "2")
    yield "no `config`", drop(["config"])
    yield "no `layers`", drop(["layers"])
    yield "`layers` is null", put(["layers"], None)
    yield "a layer's `size` is -1", put(["layers", 0, "size"], -1)
    yield "a layer's `size` is `\"5\"`", put(["layers", 0, "size"], "5")
    yield "a layer's `size` is 5.5", put(["layers", 0, "size"], 5.5)
    yield "a layer has no `mediaType`", drop(["layers", 0, "mediaType"])
    yield "a layer has no `digest`", drop(["layers", 0, "digest"])
    yield "a layer's `digest` is `sha256:abc`", put(["layers", 0, "digest"], "sha256:abc")
    yield "an annotation is a number", put(["annotations", "com.example.key"], 1)
    yield "`schemaVersion` twice, the last a string", good.replace('{"schemaVersion": 2,', '{"schemaVersion": 2, "schemaVersion": "2",', 1).encode()
    yield "a comma behind the last member", (good[:-1] + ",}").encode()
    yield "the second half is missing", good[: len(good) // 2].encode()
    yield "a second document behind it", (good + "\n{}").encode()


def base_config():
    return {
        "ociVersion": "1.0.2-dev",
        "process": {"user": {"uid": 0, "gid": 0}, "args": ["sh"], "env": ["PATH=/bin"], "cwd": "/"},
        "root": {"path": "rootfs"},
        "mounts": [
            {"destination": "/proc", "type": "proc", "source": "proc"},
            {"destination": "/sys", "type": "sysfs", "source": "sysfs"},
            {"destination": "/dev/pts", "type": "devpts", "source": "devpts"},
            {"destination": "/dev/shm", "type": "tmpfs", "source": "shm"},
        ],
        "linux": {"namespaces": [{"type": "pid"}, {"type": "mount"}]},
    }


def configurations():
    """What is special about each configuration of a container, and the document."""
    def changed(path, value):
        document = base_config()
        at = document
        for name in path[:-1]:
            at = at[name]
        if value is None:
            del at[path[-1]]
        else:
            at[path[-1]] = value
        return document

    yield "nothing", base_config()
    yield "an unknown member", changed(["note"], 1)
    yield "no `ociVersion`", changed(["ociVersion"], None)
    yield "`ociVersion` is `one`", changed(["ociVersion"], "one")
    yield "no `root`", changed(["root"], None)
    yield "`root.path` is 1", changed(["root", "path"], 1)
    yield "no `process.args`", changed(["process", "args"], None)
    yield "`process.cwd` is `here`", changed(["process", "cwd"], "here")
    yield "`process.cwd` is 1", changed(["process", "cwd"], 1)
    yield "`process.env` has `PATH`", changed(["process", "env"], ["PATH"])
    yield "`process.user.uid` is -1", changed(["process", "user", "uid"], -1)
    yield "a capability `CAP_ALL`", changed(["process", "capabilities"], {"bounding": ["CAP_ALL"]})
    yield "a limit `RLIMIT_ALL`", changed(["process", "rlimits"], [{"type": "RLIMIT_ALL", "hard": 1, "soft": 1}])
    yield "a soft limit above the hard one", changed(["process", "rlimits"], [{"type": "RLIMIT_NOFILE", "hard": 1, "soft": 2}])
    yield "two limits of one type", changed(["process", "rlimits"], [{"type": "RLIMIT_NOFILE", "hard": 1, "soft": 1}] * 2)
    yield "a mount's `destination` is `proc`", changed(["mounts", 0, "destination"], "proc")
    yield "a mount has no `destination`", changed(["mounts", 0, "destination"], None)
    yield "a namespace `foo`", changed(["linux", "namespaces"], [{"type": "foo"}])
    yield "a namespace twice", changed(["linux", "namespaces"], [{"type": "pid"}, {"type": "pid"}])
    yield "`hostname` without a UTS namespace", changed(["hostname"], "box")


def layout(folder, manifest):
    for data in (CONFIG, manifest):
        path = folder / "blobs" / "sha256" / digest(data)[7:]
        path.parent.mkdir(parents=True, exist_ok=True)
        path.write_bytes(data)
    (folder / "oci-layout").write_text('{"imageLayoutVersion": "1.0.0"}')
    entry = {"mediaType": "application/vnd.oci.image.manifest.v1+json", "digest": digest(manifest), "size": len(manifest),
             "annotations": {"org.opencontainers.image.ref.name": "x"}}
    (folder / "index.json").write_text(json.dumps({"schemaVersion": 2, "manifests": [entry]}))


def accepts(words):
    done = subprocess.run(words, stdin=subprocess.DEVNULL, stdout=subprocess.DEVNULL, stderr=subprocess.DEVNULL, timeout=60, check=False)
    return done.returncode == 0


def first_line(words):
    done = subprocess.run(words, stdin=subprocess.DEVNULL, stdout=subprocess.PIPE, stderr=subprocess.STDOUT, timeout=60, check=False, text=True)
    return done.stdout.split("\n")[0]


def row(special, answers):
    return f"| {special} | " + " | ".join("accepts" if answer else "rejects" for answer in answers) + " |"


def manifests_table(program):
    rows = ["| the manifest has | `ciderglen check` | with `--rules` | jq | skopeo | umoci |", "|---|---|---|---|---|---|"]
    for special, manifest in cases():
        with tempfile.TemporaryDirectory() as room:
            folder, file = pathlib.Path(room) / "layout", pathlib.Path(room) / "manifest.json"
            layout(folder, manifest)
            file.write_bytes(manifest)
            check = [program, "check", "--quiet", "--kind", "manifest"]
            rows.append(row(special, [
                accepts([*check, file]), accepts([*check, "--rules", file]), accepts(["jq", "empty", file]),
                accepts(["skopeo", "inspect", f"oci:{folder}:x"]), accepts(["umoci", "stat", "--image", f"{folder}:x"])]))
    return "\n".join(rows)


def configurations_table(program):
    rows = ["| the configuration has | `ciderglen check` | with `--rules` | jq | oci-runtime-tool |", "|---|---|---|---|---|"]
    with tempfile.TemporaryDirectory() as room:
        listed = list(configurations())
        found = oracle.answers(room, [document for _, document in listed], "linux", {})
        for (special, document), faults in zip(listed, found):
            file = pathlib.Path(room) / "config.json"
            file.write_text(json.dumps(document))
            check = [program, "check", "--quiet", "--kind", "spec"]
            rows.append(row(special, [accepts([*check, file]), accepts([*check, "--rules", file]), accepts(["jq", "empty", file]), not set(faults) - NO_FOLDER]))
    return "\n".join(rows)


def package_version(name):
    return first_line(["dpkg-query", "-W", "-f", "${Version}", name])


def tables(program):
    versions = ", ".join([first_line(["jq", "--version"]), first_line(["skopeo", "--version"]), first_line(["umoci", "--version"]),
                          "runtime-tools " + package_version("golang-github-opencontainers-runtime-tools-dev")])
    return f"{manifests_table(program)}\n\n{configurations_table(program)}\n\nWith {versions}.\n"


def options_of(parser):
    parser.add_argument("--program", metavar="FILE", default=program_of("ciderglen"))


def run(options):
    return brought_up_to_date({PAGE: with_table(PAGE, "tools/peers cli", tables(options.program))}, options.check)
