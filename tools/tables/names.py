"""The texts and numbers of the original crate's enums, as rows `KIND VARIANT TEXT`."""
import re

from . import source


def words(name):
    """The words of a name, as the crate heck, which strum uses, divides it."""
    found = []
    for part in re.split(r"[^A-Za-z0-9]+", name):
        start, mode = 0, ""
        for place, letter in enumerate(part):
            after = part[place + 1:place + 2]
            here = "lower" if letter.islower() else "upper" if letter.isupper() else mode
            if here == "lower" and after.isupper():
                found.append(part[start:place + 1])
                start, mode = place + 1, ""
            elif mode == "upper" and letter.isupper() and after.islower():
                found.append(part[start:place])
                start, mode = place, ""
            else:
                mode = here
        found.append(part[start:])
    return [it for it in found if it]


def serde_case(rule, name):
    """A variant's name by serde's rule."""
    snake = re.sub(r"(?<!^)([A-Z])", r"_\1", name).lower()
    return {"lowercase": name.lower(), "snake_case": snake, "SCREAMING_SNAKE_CASE": snake.upper(), None: name}[rule]


def strum_case(rule, name):
    """A variant's name by strum's rule."""
    if rule == "SCREAMING_SNAKE_CASE":
        return "_".join(words(name)).upper()
    return {"lowercase": name.lower(), None: name}[rule]


def cases(body):
    """Text and variant of each arm between a text and a variant, either way around."""
    found = []
    for arm in re.findall(r'((?:"[^"]*"\s*\|?\s*)+)=>\s*\{?\s*(?:Ok\()?\w+::(\w+)', body):
        found += [(text, arm[1]) for text in re.findall(r'"([^"]*)"', arm[0])]
    for variant, text in re.findall(r'\w+::(\w+)\s*=>\s*\{?\s*(?:write!\(f, )?"([^"]*)"', body):
        found.append((text, variant))
    return found


def json_text(declared, it):
    """What serde writes for a variant."""
    renamed = source.attribute(it.attributes, "serde", "rename")
    return renamed or serde_case(source.attribute(declared.attributes, "serde", "rename_all"), it.name)


def strum_rows(declared):
    """The rows of what strum derives: Display and EnumString."""
    rule = source.attribute(declared.attributes, "strum", "serialize_all")
    shown = source.derives(declared.attributes, "StrumDisplay") or source.derives(declared.attributes, "Display")
    for it in declared.members:
        own = source.attribute(it.attributes, "strum", "to_string")
        read = source.attribute_all(it.attributes, "strum", "serialize") + ([own] if own else [])
        read = read or [strum_case(rule, it.name)]
        if shown:
            yield "display", it.name, own or max(read, key=len)
        if source.derives(declared.attributes, "EnumString"):
            for text in read:
                yield "from_str", it.name, text


def number_rows(declared):
    """The rows of an enum's numbers."""
    for it in declared.members:
        if it.rest.startswith("="):
            yield "number", it.name, f"0x{int(it.rest[1:].replace('_', ''), 0):08x}"


def action_rows(crate, declared):
    """The rows of `as_u32`: with no number handed on, and with 0x2a."""
    body = crate.body(declared.path, "pub fn as_u32(&self, errno_ret: Option<u32>)") or ""
    for variant, plain, base, none in re.findall(
            rf"{declared.name}::(\w+) => (?:(0x\w+)|\{{\s*if let Some\(errno_ret\) = errno_ret \{{\s*"
            r"(0x\w+) \| errno_ret\s*\} else \{\s*(0x\w+))", body):
        without = int(plain or none, 16)
        handed_on = int(plain, 16) if plain else int(base, 16) | 0x2A
        yield "number", variant, f"0x{without:08x}"
        yield "as_u32", variant, f"0x{handed_on:08x}"


def error_rows(crate, declared):
    """What thiserror derives: a text for each variant, in which constants are put."""
    known = {name: value for _, name, value in crate.constants()}
    for it in declared.members:
        shown = re.search(r'#\[error\("([^"]*)"\)\]', it.attributes)[1]
        yield "display", it.name, re.sub(r"\{(\w+)\}", lambda found: known[found[1]], shown)


def closed(crate, name):
    """The rows of an enum that has a text for each variant."""
    it = crate.declared[name]
    if name == "ParseError":
        return list(error_rows(crate, it))
    rows = [("json", member.name, json_text(it, member)) for member in it.members]
    rows += strum_rows(it)
    for kind, head in [("display", f"impl Display for {name} "), ("display", "pub fn as_str(&self)"),
                       ("from_str", f"impl TryFrom<&str> for {name} ")]:
        if name == "LinuxDeviceType" or "as_str" not in head:
            rows += [(kind, variant, text) for text, variant in cases(crate.body(it.path, head) or "")]
    if name == "Capability":
        body = crate.body(it.path, "impl<'de> Deserialize<'de> for Capability ")
        for text, variant in cases(body):
            rows += [("from_json", variant, spelled) for spelled in (text, text.lower(), f"CAP_{text}", f"cap_CAP_{text}")]
    rows += number_rows(it)
    if name == "LinuxSeccompAction":
        rows += action_rows(crate, it)
    return rows


def extensible(crate, name):
    """The rows of an enum that has other texts too: read, written, and what else it has of each."""
    it = crate.declared[name]
    written = crate.body(it.path, f"impl AsRef<str> for {name} ") or crate.body(it.path, f"impl Display for {name} ")
    rows = [("from_text", variant, text) for text, variant in cases(crate.body(it.path, f"impl From<&str> for {name} "))]
    rows += [("display", variant, text) for text, variant in cases(written)]
    if name == "MediaType":
        docker = crate.body(it.path, "fn to_docker_v2s2(&self) -> Result<&str, std::fmt::Error> ")
        known = {variant: text for text, variant in cases(docker)}
        rows += [("docker", it.name, known.get(it.name, "none")) for it in it.members if it.name != "Other"]
    if name == "DigestAlgorithm":
        body = crate.body(it.path, "pub const fn digest_hexlen(&self)")
        rows += [("hexlen", *pair) for pair in re.findall(r"::(\w+) => Some\((\d+)\)", body)]
    return rows
