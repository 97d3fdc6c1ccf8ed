"""A record's `impl OciRecord`."""
from generator.calls import SHAPES
from generator.records import OPEN_NAMES, snake
from generator.text import imported, together, tuple_of, used

SAME_TERMS = ["same_document", "same_more", "same_last", "same_given", "same_perhaps", "same_texts", "same_lists", "same_maps",
              "same_named", "same_bytes", "same_numbers", "same_integers", "same_truths", "same_variants", "same_keys", "same_sets", "same_free"]
# of these, those that are specified beside the kind of member that they are about
OF_KINDS = ("same_keys", "same_sets", "same_free")


def same_term(r):
    """The proof that two documents x and y are equal exactly if their contents are."""
    out = "same_document (\n"
    last = len(r.members) - 1
    for i, m in enumerate(r.members):
        word = "same_perhaps" if m.optional else "same_given"
        term = f"{word} {m.type.same} x.{m.field} y.{m.field}"
        out += f"        same_more ({term}) (\n" if i < last else f"        same_last ({term})" + ")" * (last + 1)
    return out


def same_terms(text):
    return [w for w in used(SAME_TERMS, text) if w not in OF_KINDS]


def record_of(r, results):
    """The record of its members' results, which returns at one place where one of them is an error. A member without a result is the field itself."""
    asked = [(m.field, it) for m, it in zip(r.members, results) if it]
    alone = {f: f"{it}?" for f, it in asked} if len(asked) == 1 else {}
    alone.update({m.field: f"self.{m.field}" for m, it in zip(r.members, results) if not it})
    fields = "".join(f"            {m.field}: {alone[m.field]},\n" if m.field in alone else f"            {m.field},\n" for m in r.members)
    made = f"        Ok({r.name} {{\n{fields}        }})\n"
    if len(asked) < 2:
        return made
    return f"        let {tuple_of([f for f, _ in asked])} = {together([it for _, it in asked])}?;\n{made}"


def lemma_imports(r, well):
    """The imports of the lemmas by which the defaults in its shape are well formed."""
    own = {f"default_{snake(name)}_fits": name for name, _ in r.parts()}
    out = imported("oci_model.specs.DefaultMembers", [it for it in sorted(r.default_lemmas()) if it not in own], True)
    for lemma in used(own, well):
        out += imported(f"{r.book.default_home(own[lemma])}.specs.Default{own[lemma]}", [lemma], True)
    return out


def law_imports(r, same, well):
    """The imports of what its laws name."""
    out = ""
    for rust, _ in OPEN_NAMES.values():
        if rust in r.words():
            out += imported(f"oci_text.specs.{rust}", [f"{snake(rust)}_name"], True)
    if any(m.type.kind == "Keys" for m in r.members):
        out += imported("oci_model.specs.Keys", ["same_keys"], True)
    if any(m.type.kind == "Caps" for m in r.members):
        out += imported("oci_text.specs.CapabilitySets", ["same_sets"], True)
    for name in r.enums():
        out += imported(f"{r.book.names[name]}.specs.{name}", [f"{snake(name)}_same"], True)
    out += lemma_imports(r, well) + imported("oci_model.specs.Same", same_terms(same), True)
    out += imported(f"{SHAPES}.specs.{r.name}", [r.word], True)
    out += imported(f"{r.book.crate}.specs.{r.name}", [f"{r.word}_plain"] + [f"{r.word}_same"] * r.own_equality(), True)
    for name, crate in r.parts() * (not r.own_equality()):
        out += imported(f"{crate}.specs.contracts.{snake(name)}.{name}OciRecord.TheImpl.Laws", [f"same-law as {snake(name)}_same"], True)
    return out


def listed(words):
    """What is listed in a call of `nested!`, a line each where one does not hold them."""
    line = ", ".join(words)
    return line if len(line) < 70 else "\n" + "".join(f"            {it},\n" for it in words) + "        "


def reading(r):
    """Deserialization: of a value that is consumed, the members one after the other, by their readers and names; and of a copy."""
    fields, readers, names = ([of(m) for m in r.members] for of in (lambda m: m.field, lambda m: m.reader(), lambda m: m.names()))
    return f"""    fn from_value(alloc: Global, value: &Value) -> Result<{r.name}> {{
        let value = value.clone()?;
        Self::from_value_owned(alloc, value)
    }}

    fn from_value_owned(alloc: Global, value: Value) -> Result<{r.name}> {{
        let nested!({listed(fields)}) = read_members::<nested!({listed(readers)}), _, _>(alloc, value, NAME, nested!({listed(names)}))?;
        Ok({r.name} {{
{"".join(f"            {it},{chr(10)}" for it in fields)}        }})
    }}

"""


def conversions(r):
    same = f"    ghost same = {{ {r.word}_same }};\n" if r.own_equality() else f"    ghost same = {{ λ x y. {same_term(r)} }};\n"
    lemmas = sorted(r.default_lemmas())
    well = f"Prim.search ({', '.join(lemmas)})" if lemmas else "Prim.search"
    copies = "        Ok(*self)\n" if r.copy else record_of(r, [m.copies() for m in r.members])
    alloc = "alloc" if "alloc" in copies else "_alloc"
    writes = "".join(f"        {m.writes()};\n" for m in r.members)
    return f"""impl OciRecord for {r.name} {{
{law_imports(r, same, well)}
    ghost shape = {{ {r.word} }};

    ghost plain = {{ {r.word}_plain }};

{reading(r)}    fn to_value(&self, alloc: Global) -> Result<Value> {{
        let mut members = ObjectWriter::new(alloc);
{writes}        members.object()
    }}

    fn duplicate(&self, {alloc}: Global) -> Result<{r.name}> {{
{copies}    }}

    ghost well_formed = {{ {well} }};

{same}}}
"""
