"""The configurations that podman and buildah give a runtime.

They write config.json for the runtime to read. This one is a script that keeps the file and fails, so that no container has to run.
"""
import os
import shlex

from comparisons.written import storage
from comparisons.written.builds import FILES
from comparisons.written.images import SETTINGS

SECCOMP = '{"defaultAction": "SCMP_ACT_ERRNO", "defaultErrnoRet": 38, "architectures": ["SCMP_ARCH_X86_64"],' \
    ' "syscalls": [{"names": ["read", "write", "exit"], "action": "SCMP_ACT_ALLOW"}]}'
HOOK = '{"version": "1.0.0", "hook": {"path": "/bin/true", "args": ["true", "a"], "env": ["A=1"], "timeout": 5}, "when": {"always": true},' \
    ' "stages": ["prestart", "createRuntime", "createContainer", "startContainer", "poststart", "poststop"]}'
# options of a container of podman
CONTAINERS = """
--network none
--publish 8080:80/tcp --publish 127.0.0.1:5353:53/udp
--publish 3868:3868/sctp --publish 9000-9002:9000-9002
--expose 80 --expose 7000-7002/udp --publish-all
--ip 10.88.0.9 --mac-address 92:d0:c6:0a:29:33 --network-alias name
--network host --pid host --ipc host --uts host
--network host --cgroupns host
--network none --cgroupns private --ipc private --pid private --uts private
--network none --ipc shareable
--network none --ipc none
--network none --userns host
--network none --uidmap 0:1000:1000 --gidmap 0:1000:1000
--network none --uidmap 0:1000:1 --uidmap 1:2000:10 --gidmap 0:1000:11
--network none --stop-signal SIGRTMIN+3
--network none --stop-signal SIGKILL
--network none --stop-signal KILL
--network none --stop-signal RTMIN+3
--network none --stop-signal 9
--network none --stop-signal 64 --stop-timeout 5
--network none --user 1000:1000 --hostname box
--network none --user 1000 --group-add 10 --group-add 20
--network none --user service
--network none --user service:service --group-add keep-groups
--network none --env A=1 --env PATH=/usr/bin:/bin
--network none --env HOME --env EMPTY= --env-merge A=b
--network none --env-host
--network none --unsetenv-all
--network none --workdir /srv --umask 0027 --tz UTC
--network none --personality LINUX32
--network none --entrypoint '["/bin/sh", "-c"]'
--network none --volume named:/data --volume /tmp:/srv:ro --tmpfs /run:size=64m
--network none --volume /data --volume /tmp:/srv:rslave,noexec
--network none --volume /tmp:/srv:idmap --uidmap 0:1000:1000 --gidmap 0:1000:1000
--network none --volume /tmp:/srv:O
--network none --mount type=bind,src=/tmp,dst=/srv,ro,bind-propagation=rshared
--network none --mount type=tmpfs,dst=/run,tmpfs-size=64m,tmpfs-mode=1777 --mount type=volume,src=named,dst=/data
--network none --mount type=devpts,destination=/dev/pts
--network none --mount type=image,source=base,destination=/image
--network none --tmpfs /tmp:rw,noexec,nosuid,nodev,size=65536k,mode=1777
--network none --label com.example.name=value --annotation com.example.key=value
--network none --annotation run.oci.keep_original_groups=1
--network none --read-only
--network none --read-only --read-only-tmpfs=false
--network none --memory 64m --cpus 0.5 --pids-limit 100 --blkio-weight 100 --cpuset-cpus 0
--network none --memory 64m --memory-swap 128m --memory-reservation 32m --memory-swappiness 10
--network none --memory 64m --memory-swap -1 --oom-kill-disable
--network none --oom-score-adj 500 --pids-limit -1
--network none --oom-score-adj -500 --pids-limit 0
--network none --cpu-period 100000 --cpu-quota 50000 --cpu-shares 512 --cpuset-mems 0
--network none --cpu-rt-period 1000000 --cpu-rt-runtime 950000
--network none --blkio-weight-device /dev/DISK:200
--network none --device-read-bps /dev/DISK:1mb --device-write-bps /dev/DISK:1mb --device-read-iops /dev/DISK:100 --device-write-iops /dev/DISK:100
--network none --cgroup-parent /parent
--network none --cgroups disabled
--network none --ulimit nofile=1024:2048 --sysctl net.ipv4.ip_forward=1 --shm-size 32m
--network none --ulimit nofile=1024 --ulimit nproc=64:128 --ulimit core=0 --ulimit memlock=-1:-1 --ulimit stack=8192:16384
--network none --ulimit host
--network none --sysctl kernel.shmmax=65536 --sysctl kernel.msgmax=8192 --sysctl fs.mqueue.msg_max=10
--network none --device /dev/null:/dev/zap:rw --tty
--network none --device /dev/null --device /dev/zero:/dev/one:r --interactive
--network none --device-cgroup-rule 'c 10:200 rwm' --device-cgroup-rule 'b *:* r'
--network none --device-cgroup-rule 'a *:* rwm'
--network none --cap-drop all --cap-add net_admin --security-opt no-new-privileges
--network none --cap-add all
--network none --cap-drop all
--network none --cap-add SYS_ADMIN,CAP_NET_RAW --user 1000
--network none --cap-add all --user 1000
--network none --privileged
--network none --privileged --user 1000
--network none --security-opt seccomp=unconfined
--network none --security-opt seccomp=SECCOMP
--network none --security-opt apparmor=unconfined --security-opt label=disable
--network none --security-opt label=type:spc_t --security-opt label=level:s0:c1,c2
--network none --security-opt mask=/proc/acpi:/sys/kernel --security-opt unmask=/proc/kcore
--network none --security-opt unmask=ALL --security-opt systempaths=unconfined
--network none --security-opt proc-opts=hidepid=2
--network none --health-cmd true
--network none --health-cmd '["CMD", "true"]' --health-interval 30s --health-retries 3 --health-start-period 5s --health-timeout 10s
--network none --no-healthcheck
--network none --init --init-path /bin/true
--network none --systemd always
--network none --sdnotify container
--network none --secret secret --secret secret,type=env,target=A
--network none --chrootdirs /srv
--network none --passwd-entry root:x:0:0::/:/bin/sh
--network none --restart always --timeout 5
--dns 1.1.1.1 --dns-option ndots:2 --dns-search example.com --add-host box:10.0.0.1
--network none --no-hosts --http-proxy=false --image-volume tmpfs
"""
# options of a container of podman without root, whose user has no further IDs
ROOTLESS = """
--network none
--network host
--network none --privileged
--network none --device /dev/null --read-only --tmpfs /run
--network none --ulimit nofile=64:128 --cap-add all --group-add keep-groups
--network none --cap-drop all --hostname box --env A=1 --stop-signal SIGKILL
--network none --volume /tmp:/srv:ro --mount type=tmpfs,dst=/data --security-opt seccomp=unconfined --tty
--network none --userns host --label com.example.name=value --health-cmd true
--network none --pid host --uts host
"""
# options of `buildah from`, and of `buildah run` behind the bar
RUNS = """
| --network none
| --network host --ipc host --pid host --uts host --cgroupns host
| --network none --terminal --hostname box --workingdir /srv
| --network none --user 1000:1000 --env A=1
| --network none --user service --cap-drop all --cap-add net_admin
| --network none --cap-add all
| --network none --volume /tmp:/srv:ro --volume /tmp:/data:rslave
| --network none --mount type=tmpfs,dst=/run,tmpfs-size=64m --mount type=bind,src=/tmp,dst=/srv,ro
| --network none --no-hosts --no-pivot
--memory 64m --memory-swap 128m --cpu-shares 512 | --network none
--cpu-period 100000 --cpu-quota 50000 --cpuset-cpus 0 --cpuset-mems 0 | --network none
--ulimit nofile=1024:2048 --ulimit nproc=64 --shm-size 32m | --network none
--ulimit nofile=-1:-1 --ulimit core=0 | --network none
--security-opt seccomp=unconfined | --network none
--security-opt seccomp=SECCOMP --security-opt apparmor=unconfined | --network none
--security-opt label=disable | --network none
--device /dev/null:/dev/zap:rw --device /dev/zero | --network none
--cgroup-parent /parent | --network none
--userns-uid-map 0:1000:1000 --userns-gid-map 0:1000:1000 | --network none
--cap-add sys_admin --volume /tmp:/srv | --network none
--add-host box:10.0.0.1 --dns 1.1.1.1 | --network none
"""


def lines(room, text):
    """The words of each line, with the names of files put in."""
    text = text.replace("SECCOMP", room.path("seccomp.json")).replace("DISK", min(os.listdir("/sys/block")))
    return [shlex.split(line) for line in text.strip().split("\n")]


def prepare(room):
    room.write("seccomp.json", SECCOMP)
    room.write("hooks/all.json", HOOK)
    room.write("secret", "text")


def podman(room):
    """A container with each list of options, one of each image that is for this processor, one with hooks, and those of a pod."""
    prepare(room)
    tool = storage.podman(room)
    try:
        room.run(*tool, "secret", "create", "secret", "secret")
        for words in lines(room, CONTAINERS):
            created(room, tool, [*words, "base"])
        images = [f"image{number}" for number, settings in enumerate(SETTINGS) if not any(name == "architecture" for name, _ in settings)]
        for image in images + [f"built{number}-{form}" for number in range(len(FILES)) for form in ("oci", "docker")]:
            created(room, tool, ["--network", "none", image])
        created(room, (*tool, "--hooks-dir", room.path("hooks")), ["--network", "none", "base"], "--hooks-dir", "hooks")
        pods(room, tool)
    finally:
        room.run(*tool, "pod", "rm", "--all", "--force", fails=True)
        room.run(*tool, "rm", "--all", "--force", fails=True)


def rootless(room):
    """A container with each list of options, by a user who is not root."""
    place = "user"
    tool = storage.rootless(room, place)
    try:
        room.run(*tool, "build", "--isolation", "chroot", "--file", "file6", "--tag", "base", ".")
        for words in lines(room, ROOTLESS):
            name = room.run(*tool, "create", *words, "base", "sh").split()[-1]
            given(room, tool, name, ("podman", "create", *words, "base", "sh", "(by nobody)"), place)
    finally:
        room.run(*tool, "rm", "--all", "--force", fails=True)
        # ends the process that keeps its user namespace
        room.run(*tool, "system", "migrate", fails=True)


def pods(room, tool):
    """The first container of a pod, and one of a pod without such."""
    command = ("pod", "create", "--name", "pod", "--infra-image", "base", "--infra-command", "sh", "--infra-name", "infra", "--share", "ipc,net,uts", "--hostname", "box")
    room.run(*tool, *command)
    given(room, tool, "infra", ("podman", *command))
    room.run(*tool, "pod", "create", "--name", "others", "--infra=false", "--share", "")
    created(room, tool, ["--pod", "others", "base"])


def given(room, tool, name, command, place="root"):
    """Adds what podman gives the runtime for a container."""
    room.run(*tool, "init", name, fails=True)
    storage.add_given(room, command, place)


def created(room, tool, words, *options):
    name = room.run(*tool, "create", *words, "sh", A="1").split()[-1]
    given(room, tool, name, ("podman", *options, "create", *words, "sh"))


def buildah(room):
    """A container with each list of options."""
    prepare(room)
    tool = storage.buildah(room)
    for words in lines(room, RUNS):
        bar = words.index("|")
        name = room.run(*tool, "from", *words[:bar], "base").split()[-1]
        room.run(*tool, "run", "--isolation", "oci", "--runtime", storage.runtime(room), *words[bar + 1:], name, "--", "sh", fails=True)
        storage.add_given(room, ("buildah", "from", *words[:bar], "base", "| buildah", "run", *words[bar + 1:]))
