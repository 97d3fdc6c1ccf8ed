"""Images of buildah and podman, in OCI's and in Docker's format."""
import json

from comparisons.written import storage
from comparisons.written.images import SETTINGS

BUILDAH = {"user": "--user", "env": "--env", "port": "--port", "cmd": "--cmd", "entrypoint": "--entrypoint", "workingdir": "--workingdir",
           "label": "--label", "stopsignal": "--stop-signal", "volume": "--volume", "author": "--author", "architecture": "--arch", "os": "--os",
           "created": "--created-by"}
# more options of `buildah config`
CONFIG = [
    ["--healthcheck", "CMD /bin/true", "--healthcheck-interval", "30s", "--healthcheck-retries", "3", "--healthcheck-start-period", "5s", "--healthcheck-timeout", "10s"],
    ["--healthcheck", "NONE"],
    ["--shell", "/bin/bash -c"],
    ["--onbuild", "RUN true"],
    ["--comment", "a comment", "--history-comment", "another", "--add-history"],
    ["--hostname", "box", "--domainname", "example.com"],
    ["--arch", "arm", "--variant", "v7"],
    ["--arch", "arm64", "--variant", "v8"],
    ["--os", "windows", "--os-version", "10.0.14393.1066", "--os-feature", "win32k"],
    ["--os", "freebsd"],
    ["--port", "80/tcp", "--port", "81", "--port", "53/udp"],
    ["--entrypoint", '["/bin/sh", "-c"]', "--cmd", "a b"],
    ["--annotation", "org.opencontainers.image.created=2020-01-01T00:00:00Z", "--annotation", "org.opencontainers.image.licenses=MIT"],
]
# options of `buildah commit`
COMMIT = [
    ["--timestamp", "0"],
    ["--squash"],
    ["--omit-history"],
    ["--disable-compression=false"],
    ["--identity-label=false"],
    ["--encryption-key", "jwe:key.pub"],
    ["--unsetenv", "A"],
]
# options of `podman commit`
PODMAN_COMMIT = [
    ["--format", "oci"],
    ["--format", "docker", "--change", "ENTRYPOINT sh", "--message", "a comment"],
    ["--format", "oci", "--author", "Someone", "--change", "STOPSIGNAL KILL", "--change", "EXPOSE 81/udp", "--squash"],
]
# the lines of a Containerfile behind FROM scratch
FILES = [
    ["ARG VERSION=1", "ENV A=$VERSION B=2", "LABEL version=$VERSION", "EXPOSE 80 443/tcp 53/udp 7000-7002 3868/sctp"],
    ["HEALTHCHECK --interval=30s --timeout=5s --retries=2 --start-period=1s CMD true", "STOPSIGNAL SIGTERM"],
    ["HEALTHCHECK NONE", "STOPSIGNAL 9"],
    ['SHELL ["/bin/bash", "-c"]', "CMD echo a", "ENTRYPOINT echo", "STOPSIGNAL KILL"],
    ["ONBUILD COPY . /srv", "ONBUILD ENV A=1", "STOPSIGNAL SIGRTMIN+3"],
    ["COPY files /", "USER service:service", "WORKDIR srv", 'VOLUME ["/data", "/cache"]', "STOPSIGNAL RTMIN+3"],
    ["COPY files /", "ADD layer.tar /srv/", "USER 1000:1000", 'CMD ["sh"]', "MAINTAINER Someone <someone@example.com>"],
    ["AS first", "COPY files /", "FROM scratch", "COPY --from=first /etc /etc", "ENV PATH=/bin"],
]
# options of `buildah build` and `podman build`
BUILD = [
    [],
    ["--timestamp", "0", "--squash"],
    ["--layers", "--label", "com.example.a=b", "--annotation", "com.example.c=d", "--env", "C=3", "--build-arg", "VERSION=2"],
    ["--platform", "linux/arm/v7"],
    ["--platform", "linux/arm64"],
    ["--platform", "windows/amd64", "--os-version", "10.0.14393.1066"],
]
# options of `manifest annotate`, for an image of a list
ANNOTATE = [
    ["--arch", "arm", "--variant", "v7", "--os", "linux"],
    ["--os", "windows", "--arch", "amd64", "--os-version", "10.0.14393.1066", "--os-features", "win32k"],
    ["--annotation", "com.example.key=value"],
    ["--features", "sse4"],
]


def buildah(room):
    """Images with each list of settings, in both formats; with other options; of Containerfiles; and lists of images."""
    tool = storage.buildah(room)
    listed = [[word for key, value in settings for word in (BUILDAH[key], value)] for settings in SETTINGS] + CONFIG
    for number, words in enumerate(listed):
        name = room.run(*tool, "from", "scratch").strip()
        if number:
            room.run(*tool, "copy", name, "files", "/")
        room.run(*tool, "config", "--annotation", "com.example.key=value", *words, name)
        room.run(*tool, "commit", name, f"image{number}")
        for form, to in (("oci", f"oci:buildah{number}:tag"), ("oci", f"dir:buildah{number}-oci"), ("docker", f"dir:buildah{number}-docker")):
            room.run(*tool, "commit", "--format", form, name, to)
            add(room, ("buildah", "commit", "--format", form, to.partition(":")[0] + ":", f"({' '.join(words)})"), to)
    for number, words in enumerate(COMMIT):
        to = f"oci:commit{number}:tag"
        room.run(*tool, "commit", *words, name, to)
        add(room, ("buildah", "commit", *words, to), to)
    name = room.run(*tool, "from", "scratch").strip()
    room.run(*tool, "copy", name, "files", "/")
    room.run(*tool, "commit", name, "base")
    built(room, tool)
    lists(room, tool)


def podman(room):
    """Images of Containerfiles, commits and saved images, and lists of images."""
    tool = storage.podman(room)
    built(room, tool)
    lists(room, tool)
    for form, words in (("oci-dir", []), ("docker-dir", []), ("docker-dir", ["--compress"])):
        to = f"saved-{form}{len(words)}"
        room.run(*tool, "save", "--format", form, *words, "--output", to, "image5")
        add(room, ("podman", "save", "--format", form, *words, "image5"), ("oci:" if form == "oci-dir" else "dir:") + to)
    name = room.run(*tool, "create", "--network", "none", "image1", "sh").strip()
    for number, words in enumerate(PODMAN_COMMIT):
        command = ("commit", *words)
        room.run(*tool, *command, name, "committed")
        to = f"dir:committed{number}"
        room.run(*tool, "push", "committed", to)
        add(room, ("podman", *command), to)


def add(room, command, to):
    """Adds what a command wrote to a folder of a transport."""
    transport, _, folder = to.partition(":")
    if transport == "oci":
        room.add_layout(command, folder.partition(":")[0])
    else:
        room.add_dir(command, folder)


def built(room, tool):
    """The images of each Containerfile, and of the first with each list of options, in both formats."""
    for number, lines in enumerate(FILES):
        room.write(f"file{number}", "FROM scratch " + "\n".join(lines if lines[0].startswith("AS") else ["", *lines]) + "\n")
    cases = [(number, []) for number in range(len(FILES))] + [(0, words) for words in BUILD[1:]]
    for number, (file, words) in enumerate(cases):
        for form in ("oci", "docker"):
            to = f"dir:{tool[0]}-built{number}-{form}"
            room.run(*tool, "build", "--format", form, *words, "--file", f"file{file}", "--tag", f"built{number}-{form}", ".")
            room.run(*tool, "push", f"built{number}-{form}", to)
            add(room, (tool[0], "build", "--format", form, *words, f"({'; '.join(FILES[file])})"), to)


def lists(room, tool):
    """Lists of two images, in both formats, with each list of annotations."""
    both = "both" if tool[0] == "buildah" else "pods"
    room.run(*tool, "manifest", "create", both)
    for image in ("image0", "built4-oci"):
        room.run(*tool, "manifest", "add", both, f"containers-storage:localhost/{image}")
    inspected(room, tool, both)
    for form in ("oci", "v2s2"):
        to = f"dir:{both}-{form}"
        room.run(*tool, "manifest", "push", "--all", "--format", form, both, to)
        add(room, (tool[0], "manifest", "push", "--all", "--format", form), to)
    to = f"oci:{both}:tag"
    room.run(*tool, "manifest", "push", "--all", both, to)
    add(room, (tool[0], "manifest", "push", "--all", "oci:"), to)
    digest = json.loads(room.run(*tool, "manifest", "inspect", both))["manifests"][0]["digest"]
    for number, words in enumerate(ANNOTATE):
        room.run(*tool, "manifest", "annotate", *words, both, digest)
        inspected(room, tool, both)
        to = f"dir:{both}-annotated{number}"
        room.run(*tool, "manifest", "push", "--all", both, to)
        add(room, (tool[0], "manifest", "annotate", *words), to)


def inspected(room, tool, name):
    room.add_text((tool[0], "manifest", "inspect", name), room.run(*tool, "manifest", "inspect", name))
