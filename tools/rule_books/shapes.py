"""Whether the places of rules stand in the records of tools/records."""
FREE = object()
# members that the specifications have and the records do not, which the lines `beside` of lists.rules name
BESIDE = set()


def after(kind, step, records):
    """The type to which a step leads from a value of a type; nothing where the type has no such part."""
    word = step[0]
    if word == "when":
        return kind
    if word == "member":
        if step[1] in BESIDE:
            return FREE
        if kind in records:
            return records[kind].get(step[1])
        return kind[1:-1] if kind.startswith("{") else FREE if kind in ("Free", "Detail") else None
    if word == "item":
        return kind[1:-1] if kind.startswith("[") else "T" if kind == "Caps" else None
    if word == "name":
        return "T" if kind.startswith("{") or kind in ("Keys", "Free") or kind in records else None
    return kind[1:-1] if kind.startswith("{") else {"Keys": FREE, "Free": FREE}.get(kind)


def through(kind, names, records):
    for name in names:
        kind = after(kind, ("member", name), records)
        if kind is None or kind is FREE:
            return kind
    return kind


def asked(test):
    """The members that a test names, but those that are to be absent, or a boolean."""
    word = test[0]
    if word in ("there", "not_null"):
        return [((), test[1])]
    if word in ("lists_item", "apart"):
        return [("item", test[1])]
    if word == "as_many":
        return [((), test[1]), ((), test[3])]
    if word in ("at_most", "versions_in_order", "among", "sum_at_most"):
        return [((), test[1]), ((), test[2])]
    if word == "either":
        return [((), it) for it in test[1]]
    if word == "distinct" and test[1][0] == "members":
        return [("item", way) for way in test[1][1]]
    return []


def faults(line, shape, records):
    """What of a line does not stand in a record."""
    kind, out = shape, []
    for step in line.steps:
        if step[0] == "when" and step[4] != ("there",):
            start = shape if step[1] == "document" else kind
            if through(start, step[2], records) is None:
                out.append(f"no {'/'.join(step[2])} in {start}")
        kind = after(kind, step, records)
        if kind is None:
            return out + [f"no {step[1:] or step[0]}"]
        if kind is FREE:
            return out
    for way, names in asked(line.test):
        names = (names,) if isinstance(names, str) else names
        start = after(kind, ("item",), records) if way == "item" else kind
        if start is None or through(start, names, records) is None:
            out.append(f"no {'/'.join(names)} in {kind}")
    return out


def of_books(books):
    """The members of each record of tools/records: its types by their names."""
    return {record.name: {name: it.type.text for it in record.members for name in (it.name, it.second) if name} for book in books for record in book.records}
