"""The default documents of the original crate, made by reading its `Default` impls, as JSON values.

An optional member that is there is its value, and one that is not is `None`; a text, a path and an enum are texts.
"""
import re

from . import names, source

TOKEN = re.compile(r'\s*("(?:\\.|[^"\\])*"|\d\w*|\w+!?|::<\w+>|::|\.\.|[.,:(){}\[\]])')
CONVERSIONS = {"into", "to_string", "to_owned", "clone", "into_iter", "collect"}


class Refused(Exception):
    """A builder that is given nothing builds nothing: the first field that it needs."""


class Reading:
    """An expression, read from left to right."""

    def __init__(self, crate, text, known):
        self.crate, self.known, self.place = crate, known, 0
        self.tokens = TOKEN.findall(text)
        assert "".join(self.tokens) == re.sub(r'\s(?=(?:[^"]*"[^"]*")*[^"]*$)', "", text), text

    def next(self, wanted=None):
        token = self.tokens[self.place]
        assert wanted in (None, token), (wanted, token, self.tokens)
        self.place += 1
        return token

    def at(self, *wanted):
        return self.tokens[self.place:self.place + len(wanted)] == list(wanted)

    def expression(self, type_):
        value = self.primary(type_)
        while self.at("."):
            self.next()
            assert self.next() in CONVERSIONS, self.tokens
            if self.tokens[self.place].startswith("::<"):
                self.next()
            self.next("(")
            self.next(")")
        return value

    def listed(self, close, type_):
        found = []
        while not self.at(close):
            found.append(self.expression(type_))
            if not self.at(close):
                self.next(",")
        self.next(close)
        return found

    def primary(self, type_):
        token = self.next()
        if token == "vec!":
            self.next("[")
            return self.listed("]", inner(inner(type_, "Option"), "Vec"))
        if token[0] == '"' or token[0].isdigit() or token in ("true", "false", "None"):
            return {"true": True, "false": False, "None": None}[token] if token[0].isalpha() else scalar(token)
        if token == "Some":
            self.next("(")
            return self.listed(")", inner(type_, "Option"))[0]
        if token in self.known:
            return self.known[token]
        if self.at("::"):
            return self.path(token, type_)
        if self.at("("):
            self.next("(")
            self.next(")")
            return block(self.crate, self.crate.function(token), type_)
        if token.isupper() or "_" in token:
            return next(scalar(it[2]) for it in self.crate.constants() if it[1] == token)
        return self.structure(token)

    def path(self, owner, type_):
        self.next("::")
        last = self.next()
        if self.at("("):
            self.next("(")
            found = self.listed(")", None)
            if last == "default":
                return default(self.crate, type_ if owner == "Default" else owner)
            return found[0]
        return variant_text(self.crate, owner, last)

    def structure(self, name):
        declared = self.crate.declared[name]
        types = {it.name: it.type for it in declared.members}
        self.next("{")
        found = {}
        while not self.at("}"):
            field = self.next()
            self.next(":")
            found[field] = self.expression(types[field])
            if not self.at("}"):
                self.next(",")
        self.next("}")
        return document(declared, found)


def scalar(token):
    """A text or a number."""
    if token[0] == '"':
        return token[1:-1]
    return int(token) if token.isdigit() else token


def inner(type_, outer):
    """The type within another one, or the type itself."""
    found = re.fullmatch(rf"{outer}<(.*)>", type_ or "")
    return found[1] if found else type_


def variant_text(crate, owner, variant):
    """The JSON text of a variant."""
    declared = crate.declared[owner]
    if any(it.name == "Other" for it in declared.members):
        return {it[1]: it[2] for it in names.extensible(crate, owner) if it[0] == "display"}[variant]
    return {it.name: names.json_text(declared, it) for it in declared.members}[variant]


def document(declared, fields):
    """The JSON object of a record's fields, with what serde leaves out left out."""
    found = {}
    for it in declared.members:
        value = fields[it.name]
        skip = source.attribute(it.attributes, "serde", "skip_serializing_if")
        if value is None and skip or value == [] and skip == "is_none_or_empty":
            continue
        found[json_name(declared, it)] = value
    return found


def json_name(declared, it):
    """The name of a member in JSON."""
    renamed = source.attribute(it.attributes, "serde", "rename")
    rule = source.attribute(declared.attributes, "serde", "rename_all")
    pascal = "".join(part.capitalize() for part in it.name.split("_"))
    return renamed or {"camelCase": pascal[0].lower() + pascal[1:], "PascalCase": pascal, None: it.name}[rule]


def block(crate, text, type_):
    """The value of a block: `let` lines, and an expression."""
    known = {}
    for it in source.parts(text, ";"):
        let = re.match(r"let (\w+) =", it)
        if let is None:
            return Reading(crate, it, known).expression(type_)
        known[let[1]] = Reading(crate, it[let.end():], known).expression(None)
    raise ValueError(text)


def default(crate, type_):
    """The default of a type; of a record, the whole document."""
    if type_.startswith("Option<"):
        return None
    for pattern, value in [(r"[iu]\d+|usize", 0), (r"bool", False), (r"String|PathBuf", ""), (r"Vec<.*>", []),
                           (r"HashMap<.*>|Annotations", {})]:
        if re.fullmatch(pattern, type_):
            return value
    if type_ in ("Os", "Arch"):
        return "(the host's)"
    declared = crate.declared[type_]
    written = crate.default_body(type_)
    if written is not None:
        return block(crate, re.sub(r"\bSelf\b", type_, written), type_)
    if not source.derives(declared.attributes, "Default"):
        raise KeyError(type_)
    if declared.kind == "enum":
        return next(names.json_text(declared, it) for it in declared.members if "#[default]" in it.attributes)
    return document(declared, {it.name: default(crate, it.type) for it in declared.members})


def built(crate, name):
    """What a builder builds that is given nothing, or `Refused` with the first field that it needs."""
    declared = crate.declared[name]
    if source.attribute(declared.attributes, "builder", "default"):
        return default(crate, name)
    fields = {}
    for it in declared.members:
        own = source.attribute(it.attributes, "builder", "default")
        if own is None:
            raise Refused(it.name)
        fields[it.name] = default(crate, it.type) if own == "default" else Reading(crate, own, {}).expression(it.type)
    return document(declared, fields)


def rootless_mounts(crate):
    """`get_rootless_mounts`: the default mounts, changed as its body says."""
    body = crate.function("get_rootless_mounts")
    mounts = block(crate, crate.function("get_default_mounts"), "Vec<Mount>")
    first, second = re.findall(r'to_string_lossy\(\) == "([^"]*)"', body)
    dropped, = re.findall(r'retain\(\|o\| o != "([^"]*)"\)', body)
    type_, = re.findall(r'm\.typ = Some\("([^"]*)"', body)
    origin, = re.findall(r'm\.source = Some\("([^"]*)"', body)
    pushed, = re.findall(r'o\.push\("([^"]*)"', body)
    for it in mounts:
        if it["destination"] == first:
            it["options"] = [option for option in it["options"] if option != dropped]
        if it["destination"] == second:
            it.update(type=type_, source=origin, options=it["options"] + [pushed])
    return mounts


def rootless_linux(crate, uid, gid):
    """`Linux::rootless`: the default with no network, a user namespace, one mapping each and no resources."""
    found = default(crate, "Linux")
    found["namespaces"] = [it for it in found["namespaces"] if it["type"] != variant_text(crate, "LinuxNamespaceType", "Network")]
    found["namespaces"].append({"type": variant_text(crate, "LinuxNamespaceType", "User")})
    del found["resources"]
    found["uidMappings"] = [{"containerID": 0, "hostID": uid, "size": 1}]
    found["gidMappings"] = [{"containerID": 0, "hostID": gid, "size": 1}]
    return found


def rootless_spec(crate, uid, gid):
    """`Spec::rootless`: the default with rootless mounts and a rootless Linux part."""
    return default(crate, "Spec") | {"mounts": rootless_mounts(crate), "linux": rootless_linux(crate, uid, gid)}
