"""Why runtime-tools' validator and the rules differ on a document: each reason with what the document has to show for it."""
import re

DEFINED = "org.opencontainers.image."


def dig(value, *way):
    """The part at the end of the names, or nothing."""
    for name in way:
        value = value.get(name) if isinstance(value, dict) else None
    return value


def items(value, *way):
    found = dig(value, *way)
    return [it for it in found if it is not None] if isinstance(found, list) else []


def texts(value, *way):
    return [it for it in items(value, *way) if isinstance(it, str)]


def has(entry, name):
    return isinstance(entry, dict) and entry.get(name) is not None


def hooks(document, kinds):
    return [it for kind in kinds for it in items(document, "hooks", kind) if isinstance(it, dict)]


def limit(document, name):
    found = dig(document, "linux", "resources", "memory", name)
    return found if isinstance(found, int) else 0


def joins(document, kind):
    """Whether it lists a namespace of a kind with a path."""
    return any(dig(it, "type") == kind and dig(it, "path") for it in items(document, "linux", "namespaces"))


OLD_HOOKS = ("prestart", "poststart", "poststop")
NEW_HOOKS = ("createRuntime", "createContainer", "startContainer")
ABSENT = "an absent member is empty for it; of an absent one a rule says nothing, and the schema does"
NEW = "it wants a new namespace, where the rule takes one that is joined too"
REASONS = {
    ("annotation-key-reserved-runtime", "theirs"): [
        ("it refuses every key below org.opencontainers, also those that the specification lists",
         lambda d: any(key.startswith(DEFINED) for key in dig(d, "annotations") or {}))],
    ("annotation-key-reverse-domain", "theirs"): [
        ("it wants two to six letters at the beginning", lambda d: any(not re.match(r"[A-Za-z]{2,6}\.", key) for key in dig(d, "annotations") or {})),
        ("it takes no `_`, as run.oci.keep_original_groups of crun has it", lambda d: any("_" in key for key in dig(d, "annotations") or {}))],
    ("hook-env", "ours"): [
        ("it does not look at the newer kinds of hooks", lambda d: any(items(it, "env") for it in hooks(d, NEW_HOOKS))),
        ("it takes an empty name", lambda d: any(env.startswith("=") for it in hooks(d, OLD_HOOKS) for env in texts(it, "env")))],
    ("hook-env", "theirs"): [
        ("it wants a name of letters, digits and `_`, where the rule takes any", lambda d: any("=" in env for it in hooks(d, OLD_HOOKS) for env in texts(it, "env")))],
    ("hook-path-absolute", "theirs"): [(ABSENT, lambda d: any(not has(it, "path") for it in hooks(d, OLD_HOOKS)))],
    ("hook-path-absolute", "ours"): [("it does not look at the newer kinds of hooks", lambda d: bool(hooks(d, NEW_HOOKS)))],
    ("process-env-name", "ours"): [
        ("it takes an empty name", lambda d: any(it.startswith("=") for it in texts(d, "process", "env"))),
        ("it takes a digit at the beginning", lambda d: any(it[:1].isdigit() for it in texts(d, "process", "env")))],
    ("process-cwd-absolute", "theirs"): [(ABSENT, lambda d: not has(dig(d, "process"), "cwd"))],
    ("mount-destination-absolute", "theirs"): [(ABSENT, lambda d: any(not has(it, "destination") for it in items(d, "mounts")))],
    ("root-path-rootfs", "theirs"): [(ABSENT, lambda d: not has(dig(d, "root"), "path"))],
    ("spec-version", "theirs"): [(ABSENT + " as spec-version-there", lambda d: not has(d, "ociVersion"))],
    ("block-weight-there", "theirs"): [(ABSENT, lambda d: False)],
    ("block-weight-there", "ours"): [
        ("it stops at an access that is none, before it", lambda d: any(set(str(dig(it, "access") or "")) - set("rwm") for it in items(d, "linux", "resources", "devices")))],
    ("rlimit-type-solaris", "theirs"): [("on Linux the schema has the names", lambda d: True)],
    ("rlimit-once", "theirs"): [("an absent type is empty for it", lambda d: any(not has(it, "type") for it in items(d, "process", "rlimits")))],
    ("rlimit-soft-at-most-hard", "theirs"): [("an absent limit is 0 for it", lambda d: any(not has(it, "hard") for it in items(d, "process", "rlimits")))],
    ("namespace-once", "theirs"): [("an absent type is empty for it", lambda d: any(not has(it, "type") for it in items(d, "linux", "namespaces")))],
    ("device-path-once", "theirs"): [("an absent path is empty for it", lambda d: any(not has(it, "path") for it in items(d, "linux", "devices")))],
    ("hostname-needs-uts", "ours"): [
        ("it does not ask where there is no part for Linux", lambda d: not has(d, "linux")),
        ("it takes an empty name", lambda d: dig(d, "hostname") == "")],
    ("hostname-needs-uts", "theirs"): [(NEW, lambda d: joins(d, "uts"))],
    ("mapping-needs-user", "theirs"): [
        (NEW, lambda d: any(has(it, "path") for it in items(d, "linux", "namespaces")))],
    ("mapping-needs-user", "ours"): [("it takes an empty list", lambda d: [] in (dig(d, "linux", "uidMappings"), dig(d, "linux", "gidMappings")))],
    ("sysctl-network", "theirs"): [(NEW, lambda d: joins(d, "network"))],
    ("sysctl-ipc", "ours"): [
        ("it looks at fs.mqueue alone", lambda d: any(key.startswith(("kernel.", "kernel/", "fs/")) for key in dig(d, "linux", "sysctl") or {}))],
    ("sysctl-ipc", "theirs"): [
        (NEW, lambda d: joins(d, "ipc")),
        ("it wants a new mount namespace too", lambda d: not any(dig(it, "type") == "mount" and not has(it, "path") for it in items(d, "linux", "namespaces")))],
    ("memory-limit-at-most-swap", "theirs"): [("it compares negative limits as very large ones", lambda d: limit(d, "limit") < 0)],
    ("memory-limit-at-most-swap", "ours"): [("it compares negative limits as very large ones", lambda d: limit(d, "swap") < 0)],
    ("cgroup-device-type", "ours"): [("it takes an empty type", lambda d: any(dig(it, "type") == "" for it in items(d, "linux", "resources", "devices"))),
                                     ("it stops at an access that is none, before it", lambda d: any(set(str(dig(it, "access") or "")) - set("rwm") for it in items(d, "linux", "resources", "devices")))],
    ("cgroup-device-access", "ours"): [
        ("it takes a letter twice", lambda d: any(len(set(it)) < len(it) for it in (str(dig(e, "access") or "") for e in items(d, "linux", "resources", "devices")))),
        ("it stops at the first that is none", lambda d: len(items(d, "linux", "resources", "devices")) > 1)],
    ("process-args-some", "ours"): [],
    ("capability-spelling", "theirs"): [
        ("its list ends at CAP_AUDIT_READ", lambda d: any("CAP_BPF" in texts(d, "process", "capabilities", it) for it in ("bounding", "effective", "permitted")))],
}


def reason(rule, side, document):
    """Why they differ on the document; nothing if no reason is known."""
    return next((why for why, shows in REASONS.get((rule, side), ()) if shows(document)), None)
