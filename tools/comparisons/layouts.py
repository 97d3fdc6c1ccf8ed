"""Image layouts, good and faulty, each with what `ciderglen verify` should find in it."""
import base64
import gzip
import hashlib
import io
import json
import os
import subprocess
import tarfile

INDEX = "application/vnd.oci.image.index.v1+json"
MANIFEST = "application/vnd.oci.image.manifest.v1+json"
ARTIFACT = "application/vnd.oci.artifact.manifest.v1+json"
CONFIG = "application/vnd.oci.image.config.v1+json"
LAYER = "application/vnd.oci.image.layer.v1.tar+gzip"
EMPTY = "application/vnd.oci.empty.v1+json"
FOREIGN = "application/vnd.oci.image.layer.nondistributable.v1.tar+gzip"
DOCKER = ("application/vnd.docker.distribution.manifest.v2+json", "application/vnd.docker.container.image.v1+json",
          "application/vnd.docker.image.rootfs.diff.tar.gzip")
NAMED = {"org.opencontainers.image.ref.name": "t"}


def tool(*words, cwd=None):
    """Whether a tool ends with status 0; its output is dropped."""
    return subprocess.run(words, cwd=cwd, stdout=subprocess.DEVNULL, stderr=subprocess.DEVNULL, timeout=120).returncode == 0


def a_layer(text):
    plain = io.BytesIO()
    with tarfile.open(fileobj=plain, mode="w") as tar:
        member = tarfile.TarInfo("etc/hello")
        member.size = len(text)
        tar.addfile(member, io.BytesIO(text))
    return plain.getvalue()


class Layout:
    """A layout that is made by hand: blobs, a manifest, an index."""

    def __init__(self, root):
        self.root = root
        os.makedirs(f"{root}/blobs/sha256")
        self.top("oci-layout", {"imageLayoutVersion": "1.0.0"})

    def top(self, name, value):
        with open(f"{self.root}/{name}", "w") as file:
            json.dump(value, file)

    def blob(self, content, media_type, algorithm="sha256", **more):
        plain = content if isinstance(content, bytes) else json.dumps(content).encode()
        encoded = hashlib.new(algorithm, plain).hexdigest()
        os.makedirs(f"{self.root}/blobs/{algorithm}", exist_ok=True)
        with open(f"{self.root}/blobs/{algorithm}/{encoded}", "wb") as file:
            file.write(plain)
        return {"mediaType": media_type, "digest": f"{algorithm}:{encoded}", "size": len(plain), **more}

    def path(self, descriptor):
        return f"{self.root}/blobs/" + descriptor["digest"].replace(":", "/")

    def config(self, plain):
        return {"architecture": "amd64", "os": "linux", "rootfs": {"type": "layers", "diff_ids": ["sha256:" + hashlib.sha256(plain).hexdigest()]}}

    def index(self, *manifests, **more):
        self.top("index.json", {"schemaVersion": 2, "mediaType": INDEX, "manifests": list(manifests), **more})

    def image(self, types=(MANIFEST, CONFIG, LAYER), algorithm="sha256", config=None, change=None):
        """An image of one layer, by the media types of manifest, configuration and layer; `change` may change the manifest."""
        plain = a_layer(b"hello\n")
        self.layer = self.blob(gzip.compress(plain, mtime=0), types[2], algorithm)
        self.conf = self.blob(self.config(plain) if config is None else config, types[1])
        manifest = {"schemaVersion": 2, "mediaType": types[0], "config": self.conf, "layers": [dict(self.layer)]}
        if change:
            change(manifest)
        self.manifest = self.blob(manifest, types[0], annotations=NAMED)
        self.index(self.manifest)
        return self


# ---- the rows: a name, what should be found, and a call that makes the layout

ROWS = []


def row(name, wanted):
    def keep(make):
        ROWS.append((name, wanted, make))
        return make
    return keep


def faulty(name, wanted, **how):
    """A row of a layout by hand that is changed when it is made."""
    def keep(spoil):
        def make(root):
            layout = Layout(root).image(**how)
            spoil(layout)
        ROWS.append((name, wanted, make))
        return spoil
    return keep


@row("as umoci made it", "+ unreferenced unreferenced")
def by_umoci(root):
    with open(f"{root}.tar", "wb") as file:
        file.write(a_layer(b"hello\n"))
    return tool("umoci", "init", "--layout", root) and tool("umoci", "new", "--image", f"{root}:t") \
        and tool("umoci", "raw", "add-layer", "--image", f"{root}:t", f"{root}.tar")


@row("as skopeo copied it", "")
def by_skopeo(root):
    return by_umoci(f"{root}.from") and tool("skopeo", "copy", f"oci:{root}.from:t", f"oci:{root}:t")


@row("as buildah made it", "")
def by_buildah(root):
    with open(f"{root}.tar", "wb") as file:
        file.write(a_layer(b"hello\n"))
    base = ["buildah", "--root", f"{root}.store", "--runroot", f"{root}.run", "--storage-driver", "vfs"]
    made = subprocess.run([*base, "from", "scratch"], capture_output=True, text=True)
    container = made.stdout.strip()
    return made.returncode == 0 and tool(*base, "add", container, f"{root}.tar", "/") and tool(*base, "commit", container, f"oci:{root}:t")


@faulty("by hand", "")
def by_hand(layout):
    pass


@faulty("one byte of a layer flipped", "digest")
def flipped(layout):
    with open(layout.path(layout.layer), "r+b") as file:
        file.seek(20)
        byte = file.read(1)[0]
        file.seek(20)
        file.write(bytes([byte ^ 1]))


@faulty("layer cut short", "size")
def cut(layout):
    os.truncate(layout.path(layout.layer), layout.layer["size"] - 7)


@faulty("layer longer", "size")
def longer(layout):
    with open(layout.path(layout.layer), "ab") as file:
        file.write(b"more")


@faulty("layer missing", "missing")
def no_layer(layout):
    os.remove(layout.path(layout.layer))


@faulty("configuration missing", "missing")
def no_config(layout):
    os.remove(layout.path(layout.conf))


@faulty("size of a layer wrong in the manifest", "size", change=lambda m: m["layers"][0].update(size=m["layers"][0]["size"] + 1))
def layer_size(layout):
    pass


@faulty("size of the manifest wrong in the index", "size + unreferenced unreferenced")
def manifest_size(layout):
    layout.index({**layout.manifest, "size": layout.manifest["size"] - 1})


@faulty("one blob under two sizes", "size + image-diff-ids-count", change=lambda m: m["layers"].append({**m["layers"][0], "size": 1}))
def two_sizes(layout):
    pass


@faulty("configuration is `[1,2,3]`", "schema", config=[1, 2, 3])
def config_list(layout):
    pass


@faulty("configuration of a wrong shape", "schema + image-diff-ids-count", config={"architecture": 5, "os": "linux", "rootfs": {"type": "layers", "diff_ids": []}})
def config_shape(layout):
    pass


@row("manifest is `{\"schemaVersion\":2}`", "schema schema")
def manifest_shape(root):
    layout = Layout(root)
    layout.index(layout.blob({"schemaVersion": 2}, MANIFEST))


@row("manifest is no JSON", "json")
def manifest_text(root):
    layout = Layout(root)
    layout.index(layout.blob(b"{", MANIFEST))


@faulty("no DiffID for a layer", "+ image-diff-ids-count", config={"architecture": "amd64", "os": "linux", "rootfs": {"type": "layers", "diff_ids": []}})
def no_diff_id(layout):
    pass


@faulty("DiffID of another layer", "image-diff-id", types=(MANIFEST, CONFIG, "application/vnd.oci.image.layer.v1.tar"))
def other_diff_id(layout):
    pass


@faulty("`index.json` says arm64, the configuration amd64", "+ image-platform-architecture")
def other_platform(layout):
    layout.index({**layout.manifest, "platform": {"architecture": "arm64", "os": "linux"}})


@faulty("nested index", "")
def nested(layout):
    layout.index(layout.blob({"schemaVersion": 2, "mediaType": INDEX, "manifests": [layout.manifest]}, INDEX))


@faulty("Docker v2s2 manifest, configuration, layer", "", types=DOCKER)
def docker(layout):
    pass


@faulty("zstd layer", "", types=(MANIFEST, CONFIG, "application/vnd.oci.image.layer.v1.tar+zstd"))
def zstd(layout):
    pass


@faulty("unknown types of layer and configuration", "+ unread", types=(MANIFEST, "application/x-config", "application/x-layer"))
def unknown(layout):
    pass


@faulty("unknown type in the index", "+ unread")
def unknown_in_index(layout):
    layout.index(layout.manifest, layout.blob(b"anything", "application/x-thing"))


@faulty("media type of the manifest in capitals", "")
def capitals(layout):
    layout.index({**layout.manifest, "mediaType": MANIFEST.upper()})


@faulty("media type of the manifest with a parameter", "+ unread unreferenced unreferenced")
def parameter(layout):
    layout.index({**layout.manifest, "mediaType": f"{MANIFEST}; charset=utf-8"})


def embedding(layout, data, keep=True):
    empty = layout.blob(b"{}", EMPTY, data=base64.b64encode(data).decode())
    layout.index(layout.blob({"schemaVersion": 2, "mediaType": MANIFEST, "artifactType": "application/x-thing", "config": empty, "layers": [empty]}, MANIFEST))
    if not keep:
        os.remove(layout.path(empty))


@row("empty descriptor with `data`", "")
def embedded(root):
    embedding(Layout(root), b"{}")


@row("the same, `data` of other content", "embedded embedded")
def embedded_other(root):
    embedding(Layout(root), b"[]")


@row("the same, no blob", "missing missing")
def embedded_alone(root):
    embedding(Layout(root), b"{}", False)


def an_artifact(root, *blobs, **more):
    """A layout of one artifact manifest."""
    layout = Layout(root)
    manifest = {"mediaType": ARTIFACT, "artifactType": "application/x-thing", "blobs": list(blobs), **more}
    layout.index(layout.blob(manifest, ARTIFACT, annotations=NAMED))
    return layout


@row("artifact manifest", "")
def artifact(root):
    content = b"hello"
    layout = an_artifact(root, {"mediaType": "text/plain", "digest": "sha256:" + hashlib.sha256(content).hexdigest(), "size": len(content)})
    layout.blob(content, "text/plain")


@row("artifact manifest, blob missing", "missing")
def artifact_blob(root):
    an_artifact(root, {"mediaType": "text/plain", "digest": "sha256:" + "1" * 64, "size": 5})


@row("artifact manifest is no JSON", "json")
def artifact_text(root):
    layout = Layout(root)
    layout.index(layout.blob(b"{", ARTIFACT, annotations=NAMED))


@row("artifact manifest, `subject` that is not there", "+ missing")
def artifact_subject(root):
    an_artifact(root, subject={"mediaType": MANIFEST, "digest": "sha256:" + "0" * 64, "size": 3})


@faulty("manifest that has `manifests` too", "ambiguous",
        change=lambda m: m.update(manifests=[{"mediaType": MANIFEST, "digest": "sha256:" + "2" * 64, "size": 3}]))
def manifest_index(layout):
    pass


@faulty("`index.json` that has `layers` too", "ambiguous")
def index_manifest(layout):
    layout.index(layout.manifest, layers=[layout.layer])


@faulty("manifest whose own `mediaType` says index", "media-type", change=lambda m: m.update(mediaType=INDEX))
def confused(layout):
    pass


@faulty("layer by sha512", "", algorithm="sha512")
def sha512(layout):
    pass


@faulty("layer by md5", "unjudged", algorithm="md5")
def md5(layout):
    pass


@faulty("`subject` that is not there", "+ missing", change=lambda m: m.update(subject={"mediaType": MANIFEST, "digest": "sha256:" + "0" * 64, "size": 3}))
def subject(layout):
    pass


@faulty("nondistributable layer with `urls`, no blob", "+ image-diff-ids-count missing",
        change=lambda m: m["layers"].append({"mediaType": FOREIGN, "digest": "sha256:" + "1" * 64, "size": 3, "urls": ["https://example.com/x"]}))
def foreign(layout):
    pass


@faulty("nondistributable layer without `urls`, no blob", "missing + image-diff-ids-count",
        change=lambda m: m["layers"].append({"mediaType": FOREIGN, "digest": "sha256:" + "1" * 64, "size": 3}))
def foreign_nowhere(layout):
    pass


@faulty("`oci-layout` of version 9.9.9", "layout-version")
def version(layout):
    layout.top("oci-layout", {"imageLayoutVersion": "9.9.9"})


@faulty("no `oci-layout`", "missing")
def no_marker(layout):
    os.remove(f"{layout.root}/oci-layout")


@faulty("`index.json` without `manifests`", "schema + unreferenced unreferenced unreferenced")
def no_manifests(layout):
    layout.top("index.json", {"schemaVersion": 2})


@faulty("no `index.json`", "status 3")
def no_index(layout):
    os.remove(f"{layout.root}/index.json")


@faulty("stray files in `blobs/sha256`", "+ unreferenced unreferenced")
def stray(layout):
    for name in "a", "b":
        with open(f"{layout.root}/blobs/sha256/{name}", "w") as file:
            file.write("stray")


@faulty("blob is a link", "")
def link(layout):
    path = layout.path(layout.layer)
    os.rename(path, f"{layout.root}/elsewhere")
    os.symlink("../../elsewhere", path)


@faulty("blob is a broken link", "missing")
def broken_link(layout):
    os.remove(layout.path(layout.layer))
    os.symlink("nowhere", layout.path(layout.layer))


@faulty("blob is a FIFO", "unreadable")
def fifo(layout):
    os.remove(layout.path(layout.layer))
    os.mkfifo(layout.path(layout.layer))


@faulty("blob is a folder", "unreadable")
def folder(layout):
    os.remove(layout.path(layout.layer))
    os.mkdir(layout.path(layout.layer))


@faulty("a name that is no UTF-8", "unlisted")
def no_utf8(layout):
    with open(f"{layout.root}/blobs/sha256/".encode() + b"\xff", "w") as file:
        file.write("x")


@faulty("manifest larger than 4 MiB", "too-large + unreferenced unreferenced", change=lambda m: m.update(annotations={"x": "y" * 4200000}))
def large(layout):
    pass
