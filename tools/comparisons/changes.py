"""Changes of documents, by a seed: small ones that a checker of rules may see."""
import copy
import random

WORDS = ["", "a", "/a", "a/b", "c:\\foo", "/", ".", "..", "rootfs", "1.0.2", "1.0", "SIGKILL", "A=1", "=", "A", "A-B=1", "CAP_KILL", "CAP_NONE", "kill",
         "RLIMIT_NOFILE", "RLIMIT_NONE", "pid", "uts", "user", "mount", "network", "ipc", "cgroup", "c", "b", "p", "u", "a", "rwm", "x", "shared",
         "net.ipv4.ip_forward", "fs.mqueue.msg_max", "com.example.key", "org.opencontainers.oci", "invalid"]
NUMBERS = [-2, -1, 0, 1, 2, 7, 8, 100, 101, 1024, 4096, 2**31, 2**32]


def parts(value, way=()):
    """All parts of a document, with the ways that lead to them."""
    yield way, value
    if isinstance(value, dict):
        for name in value:
            yield from parts(value[name], (*way, name))
    elif isinstance(value, list):
        for index, item in enumerate(value):
            yield from parts(item, (*way, index))


def holder(document, way):
    for step in way[:-1]:
        document = document[step]
    return document


def another(value, chance):
    """Another value of the same type."""
    if isinstance(value, bool):
        return not value
    if isinstance(value, int):
        return chance.choice(NUMBERS)
    if isinstance(value, str):
        return chance.choice(WORDS)
    return value


def changed(document, chance, samples):
    """The document with one to three changes: a part gone, doubled, of another value, or a sample more."""
    document = copy.deepcopy(document)
    for _ in range(chance.randint(1, 3)):
        way, value = chance.choice([it for it in parts(document) if it[0]])
        above, last = holder(document, way), way[-1]
        kind = chance.choice(["gone", "twice", "other", "other", "sample", "sample"])
        if kind == "gone":
            del above[last]
        elif kind == "twice" and isinstance(above, list):
            above.insert(last, copy.deepcopy(value))
        elif kind == "sample":
            way, sample = chance.choice(samples)
            put(document, way, copy.deepcopy(sample))
        else:
            above[last] = another(value, chance)
    return document


def put(document, way, value):
    """Puts a value where names lead; objects on the way are made, and lists get one item more."""
    for step in way[:-1]:
        document = document.setdefault(step, {})
        if not isinstance(document, dict):
            return
    if isinstance(value, list) and isinstance(document.get(way[-1]), list):
        document[way[-1]] += value
    else:
        document[way[-1]] = value


def all_changed(documents, samples, count, seed):
    """So many changed documents."""
    chance = random.Random(seed)
    return [changed(chance.choice(documents), chance, samples) for _ in range(count)]
