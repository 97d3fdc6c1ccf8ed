"""Images of umoci and skopeo."""
# settings of an image: what umoci and buildah call them, with the values
SETTINGS = [
    [],
    [("user", "1000:1000")],
    [("user", "1000")],
    [("user", "service")],
    [("user", "service:service")],
    [("env", "A=1"), ("env", "PATH=/usr/bin:/bin")],
    [("env", "EMPTY="), ("env", "A=b=c")],
    [("port", "80/tcp"), ("port", "53/udp")],
    [("port", "80")],
    [("port", "3868/sctp")],
    [("cmd", "sh")],
    [("entrypoint", "/bin/sh"), ("cmd", "-c")],
    [("workingdir", "/srv/app")],
    [("label", "com.example.name=value"), ("label", "org.opencontainers.image.title=A title")],
    [("label", "org.opencontainers.image.created=2020-01-01T00:00:00Z"), ("label", "org.opencontainers.image.source=https://example.com/a.git"),
     ("label", "org.opencontainers.image.licenses=MIT"), ("label", "org.opencontainers.image.version=1.0.0")],
    [("stopsignal", "SIGTERM")],
    [("stopsignal", "9")],
    [("stopsignal", "KILL")],
    [("stopsignal", "SIGRTMIN+3")],
    [("stopsignal", "RTMIN+3")],
    [("volume", "/var/lib/data")],
    [("author", "Someone <someone@example.com>"), ("created", "2020-01-01T00:00:00Z")],
    [("architecture", "arm64"), ("os", "linux"), ("user", "0")],
]
UMOCI = {"user": "--config.user", "env": "--config.env", "port": "--config.exposedports", "cmd": "--config.cmd", "entrypoint": "--config.entrypoint",
         "workingdir": "--config.workingdir", "label": "--config.label", "stopsignal": "--config.stopsignal", "volume": "--config.volume",
         "author": "--author", "created": "--created", "architecture": "--architecture", "os": "--os"}
# more options of `umoci config`
UMOCI_MORE = [
    ["--history.author", "Someone", "--history.comment", "a comment", "--history.created", "2020-01-01T00:00:00Z", "--history.created_by", "sh"],
    ["--no-history"],
    ["--clear", "config.labels", "--clear", "config.env", "--clear", "config.cmd", "--clear", "manifest.annotations"],
    ["--manifest.annotation", "org.opencontainers.image.created=2020-01-01T00:00:00Z", "--manifest.annotation", "org.opencontainers.image.licenses=MIT OR Apache-2.0",
     "--manifest.annotation", "org.opencontainers.image.url=https://example.com", "--manifest.annotation", "org.opencontainers.image.base.name=docker.io/library/debian:12"],
]
# options of `skopeo copy` for images of umoci, and the name that the copy has in its layout
COPIES = [
    (["--dest-compress-format", "zstd"], "zstd"),
    (["--dest-compress", "--dest-compress-format", "gzip", "--dest-compress-level", "9"], "gzip"),
    (["--dest-oci-accept-uncompressed-layers"], "plain"),
    (["--encryption-key", "jwe:key.pub"], "encrypted"),
    (["--format", "oci"], "docker.io/library/app:1.0"),
    ([], "localhost:5000/app:1.0"),
    ([], "my_app:1.0"),
    ([], "app:1.0_beta"),
    ([], ""),
]


def umoci(room):
    """A layout for each list of settings, with and without a layer, and the configurations that are made of it."""
    room.write("files/etc/passwd", "root:x:0:0::/:/bin/sh\nservice:x:7:7::/srv:/bin/sh\n")
    room.write("files/etc/group", "root:x:0:\nservice:x:7:\n")
    room.write("files/srv/file", "text")
    room.run("umoci", "init", "--layout", "empty")
    room.add_layout(("umoci", "init", "--layout", "empty"), "empty")
    listed = [[word for name, value in settings for word in (UMOCI[name], value)] for settings in SETTINGS] + UMOCI_MORE
    for number, words in enumerate(listed):
        umoci_image(room, f"umoci{number}", words)
    changed(room)


def umoci_image(room, name, words):
    room.run("umoci", "init", "--layout", name)
    new = ("umoci", "new", "--image", f"{name}:tag")
    room.run(*new)
    room.add_layout(new, name)
    if words:
        insert = ("umoci", "insert", "--image", f"{name}:tag", "files/etc", "/etc")
        room.run(*insert)
        room.add_layout(insert, name)
    config = ("umoci", "config", "--image", f"{name}:tag", "--manifest.annotation", "com.example.key=value", *words)
    room.run(*config)
    room.add_layout(config, name)
    for flag in ([], ["--rootless"]):
        bundle = f"{name}-bundle{len(flag)}"
        room.run("umoci", "unpack", *flag, "--image", f"{name}:tag", bundle)
        room.add(("umoci", "unpack", *flag, f"({' '.join(words)})"), "spec", room.read(f"{bundle}/config.json"))


def changed(room):
    """What umoci's other commands write, of one image."""
    image = ("--image", "umoci1:tag")
    room.write("umoci1-bundle0/rootfs/srv/file", "text")
    for words in (("repack", *image, "umoci1-bundle0"), ("tag", *image, "v1.0"), ("rm", *image), ("gc", "--layout", "umoci1")):
        room.run("umoci", *words)
        room.add_layout(("umoci", *words), "umoci1")
    room.run("tar", "cf", "layer.tar", "files")
    layer = ("umoci", "raw", "add-layer", "--image", "umoci1:v1.0", "layer.tar")
    room.run(*layer)
    room.add_layout(layer, "umoci1")
    runtime = ("umoci", "raw", "runtime-config", "--image", "umoci2:tag", "config.json")
    room.run(*runtime)
    room.add(runtime, "spec", room.read("config.json"))
    mapped = ("umoci", "unpack", "--uid-map", "0:1000:1000", "--gid-map", "0:1000:1000", "--image", "umoci2:tag", "mapped")
    room.run(*mapped)
    room.add(mapped, "spec", room.read("mapped/config.json"))


def skopeo(room):
    """A copy of each layout of umoci, in OCI's and in Docker's format, copies with other options, and what `inspect` prints."""
    for number in range(2, len(SETTINGS)):
        copied(room, f"oci:umoci{number}:tag", f"skopeo{number}", f"v1.{number}", [])
        for form in ("v2s2", "oci"):
            words = ("skopeo", "copy", "--format", form, f"oci:umoci{number}:tag", f"dir:skopeo{number}-{form}")
            room.run(*words)
            room.add_dir(words, f"skopeo{number}-{form}")
        inspected(room, f"oci:umoci{number}:tag")
    room.run("openssl", "genrsa", "-out", "key", "2048")
    room.run("openssl", "rsa", "-in", "key", "-pubout", "-out", "key.pub")
    for number, (words, name) in enumerate(COPIES):
        copied(room, "oci:umoci2:tag", f"copied{number}", name, words)
    copied(room, "dir:skopeo2-v2s2", "from-docker", "tag", [])
    copied(room, "dir:skopeo2-v2s2", "from-docker-oci", "tag", ["--format", "oci"])


def copied(room, source, folder, name, words):
    command = ("skopeo", "copy", *words, source, f"oci:{folder}:{name}")
    room.run(*command)
    room.add_layout(command, folder)


def inspected(room, source):
    raw = ("skopeo", "inspect", "--raw", source)
    room.add_text(raw, room.run(*raw))
    for words in (("--config",), ("--config", "--raw")):
        command = ("skopeo", "inspect", *words, source)
        room.add(command, "config", room.run(*command))


def converted(room):
    """Copies of an index of buildah."""
    for form in ("oci", "v2s2"):
        for words in (["--all"], ["--all", "--format", "oci"], ["--all", "--format", "v2s2"], ["--multi-arch", "index-only"]):
            name = f"all-{form}{'-'.join(words)}".replace(" ", "")
            command = ("skopeo", "copy", *words, f"dir:both-{form}", f"dir:{name}")
            room.run(*command)
            room.add_dir(command, name)
    copied(room, "dir:both-oci", "all", "tag", ["--all"])
    copied(room, "dir:both-oci", "one", "tag", [])
    inspected(room, "dir:both-oci")
    inspected(room, "oci:all:tag")
