"""Golden rows of rules: whole documents from a base and changes of it.

A file tools/rules/rows/KIND.rows, or KIND.PART.rows, has what is written by hand:

  base NAME TEXT         a document that keeps every rule, of each level
  platform NAME          the platform that the rows below are judged for; the document's own after `platform -`
  RULE                   the rows of a rule begin
  breaks BASE CHANGE     a change of the base that breaks the rule, at the pointer of the change
  breaks BASE CHANGE => POINTER
                         the same, at another pointer
  breaks BASE CHANGE => +
                         what is listed stands below, in order, a line each: `- RULE POINTER`
  keeps BASE CHANGE      a change that touches what the rule asks of, and breaks nothing

A change is a JSON Merge Patch (RFC 7396), or a JSON Pointer (RFC 6901) and the value that is put there. Pointers are without the slash at
the beginning.

A row of crates/oci_tests/data/rules/KIND.rows is three lines: the platform or `-`, the document, and what is listed, `RULE POINTER` with
two blanks between entries, or `-`.
"""
import glob
import json
import os

import golden

PROGRAM = "crates/oci_tests"
# the files of rows that are written by hand, in the order of the program
BY_HAND = ("restricted-container", "published-image", "each-test", "refused", "unknown", "twice")
MARK = "# Written by tools/gen rules from tools/rules/rows; do not edit.\n"


def patched(value, change):
    """The value after a merge patch (RFC 7396)."""
    if not isinstance(change, dict):
        return change
    out = dict(value) if isinstance(value, dict) else {}
    for name, part in change.items():
        if part is None:
            out.pop(name, None)
        else:
            out[name] = patched(out.get(name), part)
    return out


def put(value, names, part):
    """The value with a part where the names lead; objects on the way are made."""
    if not names:
        return part
    name, *rest = names
    if isinstance(value, list):
        out = list(value) + [None] * (int(name) + 1 - len(value))
        out[int(name)] = put(out[int(name)], rest, part)
        return out
    out = dict(value or {})
    out[name] = put(out.get(name), rest, part)
    return out


def changed(value, text):
    """The value after a change, the pointer of the change, and what stands behind it."""
    if text.startswith("{"):
        change, rest = json_and_rest(text)
        return patched(value, change), None, rest
    pointer, _, text = text.partition(" ")
    part, rest = json_and_rest(text)
    names = [it.replace("~1", "/").replace("~0", "~") for it in pointer.split("/")]
    return put(value, names, part), pointer, rest


class Row:
    def __init__(self, rule, breaks, document, platform, listed, base):
        self.rule, self.breaks, self.document, self.platform, self.listed, self.base = rule, breaks, document, platform, listed, base

    def text(self):
        listed = "  ".join(f"{name} /{pointer}" if pointer else name for name, pointer in self.listed) or "-"
        return f"{self.platform}\n{json.dumps(self.document, ensure_ascii=False, separators=(',', ':'))}\n{listed}\n"


def json_and_rest(text):
    """A JSON text at the beginning, and what stands behind it."""
    value, end = json.JSONDecoder().raw_decode(text)
    return value, text[end:].strip()


def read(path):
    """The rows of a file."""
    bases, rows, rule, platform = {}, [], "", "-"
    with open(path, encoding="utf-8") as file:
        for number, line in enumerate(file, 1):
            line = line.rstrip("\n")
            if not line.strip() or line.startswith("#"):
                continue
            word, _, rest = line.partition(" ")
            try:
                if word == "base":
                    name, _, text = rest.partition(" ")
                    bases[name] = json.loads(text)
                elif word == "platform":
                    platform = rest
                elif word in ("breaks", "keeps"):
                    name, _, text = rest.partition(" ")
                    document, pointer, end = changed(bases[name], text)
                    if end:
                        pointer = end.removeprefix("=>").strip()
                    if word == "breaks" and pointer is None:
                        raise ValueError("no pointer")
                    listed = [(rule, pointer)] if word == "breaks" and pointer != "+" else []
                    rows.append(Row(rule, word == "breaks", document, platform, listed, bases[name]))
                elif word == "-":
                    rule_and_pointer = rest.split(" ", 1)
                    rows[-1].listed.append((rule_and_pointer[0], rule_and_pointer[1] if len(rule_and_pointer) > 1 else ""))
                elif not rest:
                    rule = word
                else:
                    raise ValueError("no such line")
            except (ValueError, KeyError, IndexError) as wrong:
                raise SystemExit(f"{os.path.basename(path)}:{number}: {wrong}") from None
    return rows


def all_rows(root):
    """The rows of each kind of documents."""
    paths = sorted(glob.glob(os.path.join(root, "tools/rules/rows/*.rows")))
    out = {}
    for path in paths:
        kind = os.path.basename(path)[: -len(".rows")].split(".")[0]
        out.setdefault(kind, []).extend(read(path))
    return out


def lacking(model, rows):
    """The rules without a row that breaks them or one that keeps them, and rows of no rule."""
    found = {}
    for row in (row for of_kind in rows.values() for row in of_kind):
        found.setdefault(row.rule, set()).add(row.breaks)
    rules = model.rules()
    out = [f"{name}: no row that {'breaks' if breaks else 'keeps'} it" for name in rules for breaks in (True, False) if breaks not in found.get(name, ())]
    return out + [f"{name}: rows of no rule" for name in found if name not in rules]


def texts(root):
    """The rows of texts, which are written by hand."""
    with open(os.path.join(root, PROGRAM, "data/rules/texts.rows"), encoding="utf-8") as file:
        return [line for line in file if line.strip() and not line.startswith("#")]


def blocks(root, name):
    """The rows of policies and of lints, which are written by hand, with an empty line between them."""
    with open(os.path.join(root, PROGRAM, f"data/rules/{name}.rows"), encoding="utf-8") as file:
        return [it for it in file.read().strip().split("\n\n") if not it.startswith("#")]


def written(root, rows, model):
    """The data of the test program, a file a kind, and what it prints of them."""
    out = {f"data/rules/{kind}.rows": MARK + "".join("\n" + row.text() for row in of_kind) for kind, of_kind in rows.items()}
    counts = [*((kind, rows.get(kind, ())) for kind in model.kinds), ("texts", texts(root)), *((name, blocks(root, name)) for name in BY_HAND)]
    out["stdout"] = golden.with_part(golden.read(), "rules", "".join(f"{name}: {len(of_name)} rows\n" for name, of_name in counts))
    return out


def run(root, model, check):
    """Writes the rows, or says which are not up to date. Returns the exit status."""
    rows = all_rows(root)
    status = 0
    for name, made in written(root, rows, model).items():
        path = os.path.join(root, PROGRAM, name)
        if os.path.exists(path) and open(path, encoding="utf-8").read() == made:
            continue
        print(f"{'differs: ' if check else ''}{PROGRAM}/{name}")
        status = 1
        if not check:
            os.makedirs(os.path.dirname(path), exist_ok=True)
            with open(path, "w", encoding="utf-8") as file:
                file.write(made)
    missing = lacking(model, rows)
    for it in missing:
        print(it)
    return 1 if missing or (check and status) else 0


def skeleton(model, name):
    """The rows of a rule, to be filled in."""
    found = model.rules().get(name)
    if not found:
        raise SystemExit(f"no rule {name}")
    kinds = [kind for kind, (_, books) in model.kinds.items() if any(line.description.name == name for book in books for line in model.groups[book].lines(model.groups))]
    out = [f"# {kinds[0]}: {it.where}: {it.asked}" for it in found]
    return "\n".join([*out, name, "breaks base {} POINTER", "keeps base {}"])
