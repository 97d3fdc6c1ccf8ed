"""Readers in Go that others are compared with."""
import os
import subprocess

FOLDER = os.path.dirname(os.path.realpath(__file__))
DEBIAN = "/usr/share/gocode"  # where packages of Debian put sources in Go


def built_go(source, folder):
    """The program of this source beside this file, built in a folder; None if there is no compiler."""
    program = os.path.join(folder, source.removesuffix(".go"))
    environment = {**os.environ, "GOCACHE": os.path.join(folder, "go"), "GO111MODULE": "off", "GOPATH": DEBIAN}
    try:
        subprocess.run(["go", "build", "-o", program, os.path.join(FOLDER, source)], check=True, env=environment)
    except FileNotFoundError:
        return None
    return program
