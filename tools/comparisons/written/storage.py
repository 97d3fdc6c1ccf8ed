"""Where buildah and podman keep images, and the runtime that they start.

The runtime is a script that keeps the configuration which it is given, and fails. It is named crun, since podman asks some options of
runtimes of this name alone.
"""
import os

RUNTIME = """#!/bin/sh
# keeps the configuration that it is given, and fails
while [ "$#" -gt 0 ]; do
    if [ "$1" = --bundle ]; then cp "$2/config.json" "{given}"; fi
    shift
done
exit 1
"""
GIVEN, SCRIPT = "given.json", "runtime/crun"
# the user of `rootless`, nobody
USER = 65534


def runtime(room, place="root"):
    """The path of the runtime of a storage."""
    room.write(f"{place}/{SCRIPT}", RUNTIME.format(given=room.path(f"{place}/{GIVEN}")), 0o755)
    return room.path(f"{place}/{SCRIPT}")


def add_given(room, command, place="root"):
    """Adds the configuration that the runtime was given."""
    given = f"{place}/{GIVEN}"
    if not os.path.exists(room.path(given)):
        raise SystemExit(f"{' '.join(command)}: the runtime was not started")
    room.add(command, "spec", room.read(given))
    os.remove(room.path(given))


def options(room, place="root"):
    return ("--root", room.path(f"{place}/storage"), "--runroot", room.path(f"{place}/runroot"), "--storage-driver", "vfs")


def buildah(room):
    return ("buildah", *options(room))


def podman(room, place="root"):
    return ("podman", *options(room, place), "--tmpdir", room.path(f"{place}/podman"), "--cgroup-manager", "cgroupfs", "--events-backend", "file",
            "--runtime", runtime(room, place))


def rootless(room, place):
    """podman of a user who is not root, with a storage of its own."""
    words = podman(room, place)
    os.chown(room.path(place), USER, USER)
    return ("setpriv", "--reuid", str(USER), "--regid", str(USER), "--clear-groups", "env", f"HOME={room.path(place)}", f"XDG_RUNTIME_DIR={room.path(place)}", *words)
