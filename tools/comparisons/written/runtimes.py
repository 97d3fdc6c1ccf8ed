"""What runc and crun write and print, and what they give hooks and the listener of seccomp.

Containers run, with the programs of this machine. Where a runtime cannot create one, its states are left out, and that is printed.
"""
import contextlib
import json
import os
import socket
import threading

HOOKS = ["prestart", "createRuntime", "createContainer", "startContainer", "poststart", "poststop"]
HOOK = """#!/bin/sh
# keeps the state that it is given
cat > "{to}/$1.json"
"""
# crun takes no cgroups of both versions at once; in a mount namespace of its own it finds those of version 1 alone
ONE_VERSION = 'if grep -q " /sys/fs/cgroup/unified " /proc/self/mounts; then umount /sys/fs/cgroup/unified; fi; exec "$@"'
ALONE = ("unshare", "--mount", "sh", "-c", ONE_VERSION, "sh")


def documents(room):
    for tool in ("runc", "crun"):
        for words in (["spec"], ["spec", "--rootless"]):
            folder = f"{tool}{'-'.join(words)}"
            os.makedirs(room.path(folder))
            room.run("env", "--chdir", folder, tool, *words)
            room.add((tool, *words), "spec", room.read(f"{folder}/config.json"))
        features = room.run(tool, "features", fails=True)
        if features:
            room.add((tool, "features"), "features", features)
        else:
            print(f"written: {tool} {room.version(tool)} has no features")
        states(room, tool)


def bundle(room, tool):
    """A bundle whose container sleeps, with a hook of each kind, an annotation, and a system call that a listener is told of."""
    folder = f"{tool}-bundle"
    os.makedirs(room.path(f"{folder}/rootfs"))
    room.write(f"{folder}/hook", HOOK.format(to=room.path(folder)), 0o755)
    spec = json.loads(room.read(f"{tool}spec/config.json"))
    spec["root"]["readonly"] = False
    spec["process"].update(terminal=False, args=["/bin/sleep", "60"])
    spec["annotations"] = {"com.example.key": "value"}
    spec["hooks"] = {it: [{"path": room.path(f"{folder}/hook"), "args": ["hook", it]}] for it in HOOKS}
    spec["mounts"] += [{"destination": it, "type": "bind", "source": it, "options": ["rbind", "ro"]} for it in ("/bin", "/lib", "/lib64", "/usr") if os.path.exists(it)]
    spec["mounts"].append({"destination": room.path(folder), "type": "bind", "source": room.path(folder), "options": ["rbind", "rw"]})
    spec["linux"]["cgroupsPath"] = f"/written-{tool}-{os.getpid()}"
    spec["linux"]["seccomp"] = {"defaultAction": "SCMP_ACT_ALLOW", "listenerPath": room.path("listener"), "listenerMetadata": "some",
                                "syscalls": [{"names": ["acct"], "action": "SCMP_ACT_NOTIFY"}]}
    room.write(f"{folder}/config.json", json.dumps(spec))
    return folder


@contextlib.contextmanager
def listener(path):
    """What is sent to a socket, with the descriptors that come with it."""
    got = []
    with socket.socket(socket.AF_UNIX) as server:
        server.bind(path)
        server.listen()
        server.settimeout(60)

        def listen():
            with contextlib.suppress(OSError):
                with server.accept()[0] as peer:
                    text, descriptors, _, _ = socket.recv_fds(peer, 1 << 20, 8)
                    for it in descriptors:
                        os.close(it)
                    got.append(text.decode())

        thread = threading.Thread(target=listen, daemon=True)
        thread.start()
        yield got
        thread.join(1)
    os.remove(path)


def states(room, tool):
    """The states of a container from its creation to its end, by the runtime and in its hooks, and that of its process."""
    folder = bundle(room, tool)
    words = (*ALONE, tool, "--root", room.path(f"{tool}-root"))
    with listener(room.path("listener")) as got:
        try:
            room.run(*words, "create", "--bundle", folder, "box")
        except SystemExit as error:
            print(f"written: no states of {tool}: {error}")
            return
        try:
            for step in (["start"], ["pause"], ["resume"], ["kill", "KILL"]):
                room.add((tool, "state", f"(before {' '.join(step)})"), "state", room.run(*words, "state", "box"))
                room.run(*words, step[0], "box", *step[1:])
            room.add((tool, "state", "(after kill)"), "state", stopped(room, words))
        finally:
            room.run(*words, "delete", "--force", "box")
    for it in HOOKS:
        room.add((tool, "create", f"(hook {it})"), "state", room.read(f"{folder}/{it}.json"))
    for it in got:
        room.add((tool, "create", "(SCMP_ACT_NOTIFY)"), "process-state", it)


def stopped(room, words):
    """The state once the process has ended."""
    for _ in range(50):
        text = room.run(*words, "state", "box")
        if json.loads(text)["status"] == "stopped":
            break
        room.run("sleep", "0.1")
    return text
