"""Random image indexes: a wanted platform, and the platforms that manifests state."""
import random

SYSTEMS = ["linux"] * 12 + ["windows", "darwin", "macos", "Linux"]
# architectures with their variants, each as often as it is to be drawn; an empty variant is none
NAMES = {
    "amd64": ["", "", "v1", "v2", "v3", "v4", "V2"],
    "arm64": ["", "", "v8", "8", "v9", "v8.1"],
    "arm": ["", "v5", "v6", "v7", "v8", "5", "6", "7", "8", "V7", "v9"],
    "386": ["", "", "v1"],
    "ppc64le": ["", "power9"],
    "riscv64": [""],
}
OTHER_NAMES = {"x86_64": "amd64", "x86-64": "amd64", "AMD64": "amd64", "aarch64": "arm64", "AArch64": "arm64", "armhf": "arm", "armel": "arm", "i386": "386"}


def platform(chance):
    names = list(NAMES) * 4 + ["amd64", "arm64", "arm"] * 6 + list(OTHER_NAMES)
    architecture = chance.choice(names)
    variant = chance.choice(NAMES[OTHER_NAMES.get(architecture, architecture)])
    return "/".join(filter(None, [chance.choice(SYSTEMS), architecture, variant]))


def relative(chance, wanted):
    """A platform that may well run on the wanted one."""
    system, architecture = wanted.split("/")[:2]
    family = OTHER_NAMES.get(architecture, architecture)
    family = chance.choice({"amd64": ["amd64", "amd64", "amd64", "386"], "arm64": ["arm64", "arm"]}.get(family, [family]))
    return "/".join(filter(None, [system, family, chance.choice(NAMES[family])]))


def row(chance):
    wanted = platform(chance)
    stated = [chance.choice([platform(chance), relative(chance, wanted), relative(chance, wanted)]) for _ in range(chance.randrange(1, 9))]
    return wanted, [text if chance.randrange(10) else "-" for text in stated]


def random_rows(count, seed):
    chance = random.Random(seed)
    return [row(chance) for _ in range(count)]
