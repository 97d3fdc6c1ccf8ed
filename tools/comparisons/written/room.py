"""A folder that tools write in, and the documents that are found there."""
import json
import os
import subprocess
import tempfile

DOCKER = "application/vnd.docker."
KINDS = {
    "application/vnd.oci.image.manifest.v1+json": "manifest",
    "application/vnd.oci.image.index.v1+json": "index",
    "application/vnd.oci.image.config.v1+json": "config",
    DOCKER + "distribution.manifest.v2+json": "manifest",
    DOCKER + "distribution.manifest.list.v2+json": "index",
    DOCKER + "container.image.v1+json": "config",
}


class Document:
    """What a tool wrote: the tool, its version, the command, the kind, and the text. A tool that wrote Docker's format is `TOOL-docker`."""

    def __init__(self, tool, version, command, kind, text):
        self.tool, self.version, self.command, self.kind, self.text = tool, version, command, kind, text

    def row(self):
        return f"{self.tool} {self.version} | {self.kind} | {self.command}"


class Room:
    """The folder, in which each command runs, and the documents."""

    def __init__(self, folder):
        self.folder, self.documents = os.path.abspath(folder), []
        self.versions, self.seen = {}, set()

    def path(self, name):
        return os.path.join(self.folder, name)

    def read(self, name):
        with open(self.path(name), encoding="utf-8") as file:
            return file.read()

    def read_if_there(self, name):
        return self.read(name) if os.path.exists(self.path(name)) else None

    def write(self, name, text, mode=0o644):
        os.makedirs(os.path.dirname(self.path(name)), exist_ok=True)
        with open(self.path(name), "w", encoding="utf-8") as file:
            file.write(text)
        os.chmod(self.path(name), mode)

    def run(self, *words, fails=False, **variables):
        """What a command prints; it has to succeed, unless it may fail."""
        environment = dict(os.environ, STORAGE_DRIVER="vfs", BUILDAH_ISOLATION="chroot", XDG_RUNTIME_DIR=self.folder, LC_ALL="C", **variables)
        # files, since a container that goes on keeps a pipe open
        with tempfile.TemporaryFile("w+", encoding="utf-8") as out, tempfile.TemporaryFile("w+", encoding="utf-8") as err:
            done = subprocess.run(words, cwd=self.folder, env=environment, stdin=subprocess.DEVNULL, stdout=out, stderr=err, timeout=300, check=False)
            out.seek(0)
            err.seek(0)
            if done.returncode and not fails:
                raise SystemExit(f"{' '.join(words)}: {err.read()[-500:]}")
            return out.read()

    def version(self, tool):
        if tool not in self.versions:
            self.versions[tool] = self.run(tool, "--version").split()[2]
        return self.versions[tool]

    def add(self, command, kind, text, docker=False):
        """Adds a document, once for each tool that wrote it. The command is its words; the first is the tool."""
        tool = command[0] + ("-docker" if docker else "")
        if (tool, kind, text) not in self.seen:
            self.seen.add((tool, kind, text))
            self.documents.append(Document(tool, self.version(command[0]), " ".join(command).replace(f"{self.folder}/", ""), kind, text))

    def add_all(self, command, kind, text, blob, docker=False):
        """Adds a document and those that it refers to; `blob` reads one by its digest."""
        value = json.loads(text)
        docker = docker or str(value.get("mediaType")).startswith(DOCKER)
        self.add(command, kind, text, docker)
        for it in (value.get("manifests") or []) + ([value["config"]] if kind == "manifest" else []):
            below = KINDS.get(it["mediaType"])
            found = blob(it["digest"]) if below else None
            if found is not None:
                self.add_all(command, below, found, blob, docker)

    def add_layout(self, command, folder):
        """Adds the documents of an image layout."""
        def blob(digest):
            return self.read_if_there(f"{folder}/blobs/{digest.replace(':', '/')}")

        self.add(command, "layout", self.read(f"{folder}/oci-layout"))
        self.add_all(command, "index", self.read(f"{folder}/index.json"), blob)

    def add_dir(self, command, folder):
        """Adds the documents of a folder as `dir:` has it: manifest.json, and the rest by the digits of their digests."""
        def blob(digest):
            path = f"{folder}/{digest.partition(':')[2]}"
            return self.read_if_there(f"{path}.manifest.json") or self.read_if_there(path)

        self.add_text(command, self.read(f"{folder}/manifest.json"), blob)

    def add_text(self, command, text, blob=lambda digest: None):
        """Adds an index or a manifest, and what of it is at hand."""
        self.add_all(command, "index" if "manifests" in json.loads(text) else "manifest", text, blob)
