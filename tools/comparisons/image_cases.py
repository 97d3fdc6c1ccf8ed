"""The documents of image-spec's own schema tests, taken out of its Debian package."""
import re

SCHEMA = "/usr/share/gocode/src/github.com/opencontainers/image-spec/schema"
KINDS = {"config": "config", "descriptor": "descriptor", "imageIndex": "index", "imageLayout": "layout", "manifest": "manifest"}
FILES = ("config_test.go", "descriptor_test.go", "imageindex_test.go", "imagelayout_test.go", "manifest_test.go", "backwards_compatibility_test.go")
# what the tests of Docker's documents put in the place of Docker's media types
CONVERTED = {
    "application/vnd.docker.distribution.manifest.v2+json": "application/vnd.oci.image.manifest.v1+json",
    "application/vnd.docker.distribution.manifest.list.v2+json": "application/vnd.oci.image.index.v1+json",
    "application/vnd.docker.image.rootfs.diff.tar.gzip": "application/vnd.oci.image.layer.v1.tar+gzip",
    "application/vnd.docker.container.image.v1+json": "application/vnd.oci.image.config.v1+json",
}


def cases():
    """Each document: its name (file and line), its kind, its text, and whether the schema is to refuse it."""
    out = []
    for name in FILES:
        with open(f"{SCHEMA}/{name}", encoding="utf-8") as file:
            text = file.read()
        for found in re.finditer(r"^\t\t\t(\w+):\s*(`[^`]*`|\"[^\"\n]*\")[^`]*?fail:\s*(true|false)", text, re.MULTILINE):
            if found.group(1) not in KINDS:
                continue
            line = text[: found.start()].count("\n") + 1
            body = found.group(2)[1:-1]
            if name.startswith("backwards"):
                for docker, oci in CONVERTED.items():
                    body = body.replace(docker, oci)
            out.append((f"{name}-{line}", KINDS[found.group(1)], body, found.group(3) == "true"))
    return out


def examples():
    """The examples of the specification's own texts: name, kind, text."""
    kinds = {"application/vnd.oci.image.manifest.v1+json": "manifest", "application/vnd.oci.image.index.v1+json": "index",
             "application/vnd.oci.descriptor.v1+json": "descriptor", "application/vnd.oci.image.config.v1+json": "config",
             "application/vnd.oci.layout.header.v1+json": "layout"}
    out = []
    for name in ("manifest.md", "image-index.md", "descriptor.md", "config.md", "image-layout.md"):
        with open(f"{SCHEMA}/../{name}", encoding="utf-8") as file:
            text = file.read()
        for found in re.finditer(r"^ *```json,title=[^&\n]*&mediatype=(\S+)\n(.*?)^ *```", text, re.MULTILINE | re.DOTALL):
            kind = kinds.get(found.group(1).replace("%2B", "+"))
            if kind:
                out.append((f"{name}-{text[: found.start()].count(chr(10)) + 1}", kind, found.group(2)))
    return out
