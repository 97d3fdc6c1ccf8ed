"""The inputs: documents of each kind and the texts of references, always the same bytes.

Members are in the order in which image tools write them, without whitespace. What runc wrote is in data/, as it is.
"""
import hashlib
import json
import os

from benchmarks.measuring import SOURCES, TOP

IMAGE = "application/vnd.oci.image."
CREATED = "2024-05-29T03:42:17.{:09}Z"


def compact(document):
    return json.dumps(document, separators=(",", ":"))


def digest(seed):
    return "sha256:" + hashlib.sha256(str(seed).encode()).hexdigest()


def descriptor(media_type, seed, size):
    return {"mediaType": media_type, "digest": digest(seed), "size": size}


def layer(number):
    return descriptor(IMAGE + "layer.v1.tar+gzip", f"layer {number}", 1000003 * (number % 97) + 32654)


def manifest(layers):
    return {
        "schemaVersion": 2,
        "mediaType": IMAGE + "manifest.v1+json",
        "config": descriptor(IMAGE + "config.v1+json", "config", 7023),
        "layers": [layer(number) for number in range(layers)],
        "annotations": {
            "org.opencontainers.image.created": CREATED.format(1),
            "org.opencontainers.image.revision": hashlib.sha1(b"revision").hexdigest(),
        },
    }


PLATFORMS = [
    {"architecture": "amd64", "os": "linux"},
    {"architecture": "arm", "os": "linux", "variant": "v7"},
    {"architecture": "arm64", "os": "linux", "variant": "v8"},
    {"architecture": "ppc64le", "os": "linux"},
    {"architecture": "s390x", "os": "linux"},
    {"architecture": "amd64", "os": "windows", "os.version": "10.0.20348.2402"},
]


def item(number):
    """An item of an index."""
    return descriptor(IMAGE + "manifest.v1+json", f"manifest {number}", 1778 + number % 53) | {"platform": PLATFORMS[number % len(PLATFORMS)]}


def write_index(file, manifests):
    """Writes an index item by item, since a large one would take much memory as a value."""
    head, tail = compact({"schemaVersion": 2, "mediaType": IMAGE + "index.v1+json", "manifests": []}).split("[]")
    file.write(head + "[")
    for number in range(manifests):
        file.write(("," if number else "") + compact(item(number)))
    file.write("]" + tail)


def index_unknown():
    """An index of 1,000 manifests, each with a member that no schema has."""
    manifests = [item(number) | {"note": "of no schema"} for number in range(1000)]
    return {"schemaVersion": 2, "mediaType": IMAGE + "index.v1+json", "manifests": manifests}


def history(number):
    entry = {
        "created": CREATED.format(number),
        "created_by": f"RUN /bin/sh -c set -x && apt-get install -y part-{number} && rm -rf /var/lib/apt/lists/* # buildkit",
        "comment": "buildkit.dockerfile.v0",
    }
    return entry if number % 2 else entry | {"empty_layer": True}


def config(histories):
    return {
        "architecture": "amd64",
        "config": {
            "ExposedPorts": {"80/tcp": {}, "443/tcp": {}},
            "Env": [
                "PATH=/usr/local/sbin:/usr/local/bin:/usr/sbin:/usr/bin:/sbin:/bin",
                "SERVER_VERSION=1.27.0",
                "PACKAGE_RELEASE=1~bookworm",
            ],
            "Entrypoint": ["/docker-entrypoint.sh"],
            "Cmd": ["server", "-g", "daemon off;"],
            "Volumes": {"/var/cache/server": {}},
            "WorkingDir": "/srv",
            "Labels": {"maintainer": "Server Maintainers <maintainers@example.com>", "version": "1.27.0"},
            "StopSignal": "SIGQUIT",
        },
        "created": CREATED.format(2),
        "history": [history(number) for number in range(histories)],
        "os": "linux",
        "rootfs": {"type": "layers", "diff_ids": [digest(f"diff {number}") for number in range(8)]},
    }


def artifact():
    return {
        "mediaType": "application/vnd.oci.artifact.manifest.v1+json",
        "artifactType": "application/vnd.example.sbom.v1",
        "blobs": [descriptor("application/spdx+json", f"blob {number}", 150000 + number) for number in range(3)],
        "subject": descriptor(IMAGE + "manifest.v1+json", "subject", 1778),
        "annotations": {"org.opencontainers.artifact.created": CREATED.format(3), "org.example.sbom.format": "json"},
    }


def spec():
    """The specification that runc writes."""
    with open(f"{SOURCES}/data/spec.json", encoding="utf-8") as file:
        return json.load(file)


def seccomp(rules):
    """The same with so many seccomp rules more."""
    changed = spec()
    changed["linux"]["seccomp"] = {
        "defaultAction": "SCMP_ACT_ERRNO",
        "architectures": ["SCMP_ARCH_X86_64", "SCMP_ARCH_AARCH64"],
        "syscalls": [
            {
                "names": [f"call_{number}_{part}" for part in range(5)],
                "action": "SCMP_ACT_ALLOW",
                "args": [{"index": number % 6, "value": number * 4099, "op": "SCMP_CMP_EQ"}],
            }
            for number in range(rules)
        ],
    }
    return changed


def mounts(count):
    """The same with so many mounts."""
    return spec() | {
        "mounts": [
            {
                "destination": f"/srv/data-{number}",
                "type": "bind",
                "source": f"/var/lib/volumes/{hashlib.sha1(str(number).encode()).hexdigest()}",
                "options": ["rbind", "nosuid", "nodev", "ro" if number % 3 else "rw"],
            }
            for number in range(count)
        ]
    }


def tags(count):
    return {"name": "team/service", "tags": [f"v1.{number // 50}.{number % 50}-bookworm" for number in range(count)]}


def errors():
    return {
        "errors": [
            {
                "code": "MANIFEST_UNKNOWN",
                "message": "manifest unknown",
                "detail": {"name": "library/server", "reference": "v1.0", "tried": [1, 2, 3]},
            }
        ]
    }


def full_descriptor():
    return descriptor(IMAGE + "manifest.v1+json", "descriptor", 7682) | {
        "urls": ["https://registry.example.com/blobs/one", "https://mirror.example.com/blobs/one"],
        "annotations": {"org.opencontainers.image.ref.name": "v1.0"},
        "platform": PLATFORMS[5],
    }


# the inputs that are files of the repository
FILES = {"manifest": f"{TOP}/examples/manifest.json", "spec": f"{SOURCES}/data/spec.json", "features": f"{SOURCES}/data/features.json"}
# those that are made
MADE = {
    "manifest_1000": lambda: manifest(1000),
    "index_unknown": index_unknown,
    "config": lambda: config(16),
    "config_1000": lambda: config(1000),
    "artifact": artifact,
    "layout": lambda: {"imageLayoutVersion": "1.0.0"},
    "descriptor": full_descriptor,
    "error": errors,
    "repositories": lambda: {"repositories": [f"team-{number % 40}/service-{number}" for number in range(1000)]},
    "tags": lambda: tags(1000),
    "tags_100000": lambda: tags(100000),
    "spec_small": lambda: {"ociVersion": "1.0.2", "root": {"path": "rootfs", "readonly": True}, "hostname": "boxes"},
    "spec_seccomp": lambda: seccomp(500),
    "spec_mounts": lambda: mounts(10000),
    "reference": lambda: {"registry": "registry.example.com", "repository": "team/service", "tag": "v1.0", "digest": digest("reference")},
}
SHA256 = "sha256:6c3c624b58dbbcd3c0dd82b4c53f04194d1247c6eebdaab7c610cf7d66709b3b"
# the texts of the calls from other languages
CALLED = {"digest": SHA256, "reference": f"registry.example.com:5000/team/app:v1.2@{SHA256}", "none": "{}"}


def texts():
    """References of 20, 60 and 250 bytes."""
    found = ["test:5000/repo:v12.3", "registry.example.com/team-one/service-two/image-three:v1.2.3"]
    rest = ":v1@" + digest("text")
    name = "registry.example.com/" + "/".join("component-of-a-path" for _ in range(8))
    found.append((name + "-" + "x" * 250)[: 250 - len(rest)] + rest)
    assert [len(text) for text in found] == [20, 60, 250]
    return found


class Inputs:
    """The files of a folder, each written when it is first asked for."""

    def __init__(self, folder):
        self.folder = folder
        self.there = set()
        os.makedirs(folder, exist_ok=True)

    def document(self, name):
        """The file of a document: one of FILES or MADE, or index_N of N manifests."""
        if name in FILES:
            return FILES[name]
        path = f"{self.folder}/{name}.json"
        if path not in self.there:
            self.there.add(path)
            with open(path, "w", encoding="utf-8") as file:
                if name in MADE:
                    file.write(compact(MADE[name]()))
                else:
                    write_index(file, int(name.removeprefix("index_")))
        return path

    def text(self, name, text):
        """A file that holds a text."""
        path = f"{self.folder}/{name}"
        with open(path, "w", encoding="utf-8") as file:
            file.write(text)
        return path
