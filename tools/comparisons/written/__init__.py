"""What umoci, skopeo, buildah, podman, runc and crun write.

  room.py        a folder that tools write in, and the documents that are found there
  images.py      images of umoci and skopeo
  builds.py      images of buildah and podman, in OCI's and in Docker's format
  storage.py     where these keep images, and the runtime that they start
  containers.py  the configurations that podman and buildah give a runtime
  runtimes.py    what runc and crun write and print, and what they give hooks and seccomp's listener

Each part has rows of options, and makes documents of each.
"""
import os
import shutil

from comparisons.written import builds, containers, images, runtimes
from comparisons.written.room import Room

PARTS = [images.umoci, images.skopeo, builds.buildah, builds.podman, images.converted, containers.podman, containers.rootless, containers.buildah, runtimes.documents]


def documents(folder):
    """All documents, made anew in a folder of their own."""
    shutil.rmtree(folder, ignore_errors=True)
    os.makedirs(folder)
    room = Room(folder)
    for part in PARTS:
        part(room)
    return room.documents
