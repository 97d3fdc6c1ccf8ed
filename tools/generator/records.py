"""The model of records: books of descriptions, tools/records/*.records."""
import functools
import glob
import os
import re

from generator import text as words_of

NUMBERS = {"u16": "number", "u32": "number", "u64": "number", "usize": "number", "i32": "integer", "i64": "integer"}
COPY = {"B", *NUMBERS}
KEYWORDS = {"type": "typ", "ociVersion": "version", "final": "cpu_affinity_final"}
HIDDEN = {"data": "embedded_data"}
# records whose name is a keyword in snake case
WORDS = {"Box": "console_box"}
# the presences of members in shapes, and how members are read, as types
PRESENCES = {"R": "required", "O": "optional", "D": "defaulted", "N": "nullable", "E": "unless_empty"}
READERS = {"R": "Required", "O": "Optional", "D": "Defaulted", "N": "Nullable", "E": "UnlessEmpty"}
WRITE = {"R": "required", "O": "optional", "D": "required", "N": "nullable", "E": "unless_empty"}
# the defaults of a member's type: in code, as content, and the lemma by which the shape is well formed
NO_TEXT = ("String::new(alloc)", "plain.text []", "default_text")
NO_LIST = ("Vec::new(alloc)", "plain.list plain.no_plains", "default_list")
ZERO = ("0", "plain.whole (pos 0)", "default_number")
FALSE = ("false", "plain.truth false", "default_truth")
# how the equality of a member's type is stated, where it has to be
EQUAL = {"text_plain": "(λ s t. bytes_eq (string_bytes s) (string_bytes t))", "truth_plain": "beq", "number_plain": "◌==◌", "integer_plain": "int_eq"}
# types by their one word: in Rust, as content, law of equality, shape, row where it is borrowed, in specifications; and default
SCALARS = {"T": (("String", "text_plain", "same_texts", "text", "text_row", "(String Global)"), NO_TEXT),
           "B": (("bool", "truth_plain", "same_truths", "truth", "borrow.bool", "Bool"), FALSE),
           "Digest": (("Digest", "(λ d. plain.text d)", "same_bytes", "digest_text", "", "(List ℕ)"), None)}
# types of which members are optional, and have functions of their own: the kind, and as above
KINDS = {"Caps": ("Caps", ("HashSet<Capability>", "set_plain", "same_sets", "(cap_set capability_table)", "", "")),
         "Cpu": ("CpuTexts", ("String", "text_plain", "same_texts", "cpu_text", "text_row", "(String Global)")),
         "Keys": ("Keys", ("Vec<String>", "keys_plain", "same_keys", "key_set", "(list_row text_row)", "(Vec (String Global) Global)")),
         "Detail": ("Detail", ("String", "text_plain", "same_texts", "detail", "text_row", "(String Global)")),
         "Free": ("FreeValues", ("BTreeMap<String, Option<Value>>", "free_values_plain", "same_free", "free_map", "",
                                 "(BTreeMap (String Global) (Option Value))"))}
# extensible enums of `oci_text`: the type, and the table of its texts
OPEN_NAMES = {"Arch": ("Arch", "arches"), "Media": ("MediaType", "media_types"), "Os": ("Os", "oses")}


def snake(name):
    return words_of.snake(WORDS.get(name, name))


class Type:
    """A member's type: in Rust, as content, its law of equality, its shape, its row where it is borrowed mutably."""

    def __init__(self, text, book):
        self.text, self.kind, self.words, self.records, self.names, self.default = text, None, set(), [], [], None
        self.copy = text in COPY or text in book.names or text in book.copies
        if text[0] in "[{":
            self.set_container(Type(text[1:-1], book))
        elif text in SCALARS:
            fields, self.default = SCALARS[text]
            self.set(*fields)
        elif text in NUMBERS:
            word = NUMBERS[text]
            self.set(text, f"{word}_plain", f"same_{word}s", text, f"borrow.{text}", "ℕ" if word == "number" else "ℤ")
            self.default = ZERO
        elif text in KINDS:
            self.kind, fields = KINDS[text]
            self.set(*fields)
            self.eq = "free_eq" if text == "Free" else self.eq
        elif text in OPEN_NAMES or text in book.names:
            self.set_name(text)
        else:
            word = snake(text)
            self.set(text, f"{word}_plain", f"{word}_same", word, f"{word}.the_row", text)
            self.records = [text]

    def set(self, rust, plain, same, shape, row, spec):
        self.rust, self.plain, self.same, self.shape, self.row, self.spec = rust, plain, same, shape, row, spec
        self.eq = EQUAL.get(plain, f"{snake(self.text)}.ghosts.eq")

    def set_container(self, inner):
        is_list = self.text[0] == "["
        word = "list" if is_list else "map"
        self.set(f"Vec<{inner.rust}>" if is_list else f"BTreeMap<String, {inner.rust}>", f"({word}_plain {inner.plain})", f"(same_{word}s {inner.same})",
                 f"({word} {inner.shape})", f"({word}_row {inner.row})", f"(Vec {inner.spec} Global)" if is_list else f"(BTreeMap (String Global) {inner.spec})")
        entry = "(λ p q. bytes_eq (string_bytes p.0) (string_bytes q.0) && {0} p.1 q.1)"
        self.eq = f"(λ v w. pointwise {inner.eq} v.items w.items)" if is_list else f"(λ v w. pointwise {entry.format(inner.eq)} v.entries w.entries)"
        self.words, self.records, self.names = inner.words | {word}, inner.records, inner.names
        self.default = NO_LIST if is_list else None

    def set_name(self, text):
        if text in OPEN_NAMES:
            rust, tables = OPEN_NAMES[text]
            word = snake(rust)
            self.set(rust, f"(λ m. name_plain ({word}_name m))", f"(same_named {word}_name)", f"(open_name {tables})", "", rust)
            self.words.add(rust)
        else:
            word = snake(text)
            self.set(text, f"(variant_plain {word}_name)", f"(same_variants {word}_same)", f"(named {word}_table)", f"{word}.the_row", text)
            self.names = [text]
            self.default = (f"{text}::default()", f"plain.variant ({word}_name {word}_default)", "default_name")

    def of(self, term):
        """The content of a term."""
        found = re.fullmatch(r"\(λ (\w)\. (.*)\)", self.plain)
        return re.sub(rf"\b{found[1]}\b", term, found[2]) if found else f"{self.plain} {term}"


class Member:
    def __init__(self, presence, name, kind, marks, text, book):
        self.presence, self.type, self.marks, self.text = presence, Type(kind, book), marks, text
        self.name, _, self.second = name.partition("|")
        self.call = KEYWORDS.get(self.name, snake(self.name))
        self.field = HIDDEN.get(self.call, self.call)
        self.optional = presence in "ONE"

    def rust(self):
        return f"Option<{self.type.rust}>" if self.optional else self.type.rust

    def spec(self):
        return f"(Option {self.type.spec})" if self.optional else self.type.spec

    def row(self):
        return f"(option_row {self.type.row})" if self.optional else self.type.row

    def absent(self):
        """What an absent member with a default decodes to, and the lemma by which that is well formed."""
        return self.type.default[1:] if self.type.default else (f"default_{snake(self.type.text)}", f"default_{snake(self.type.text)}_fits")

    def slot(self):
        return ("perhaps " if self.optional else "given ") + self.type.plain

    def reader(self):
        """How the member is read, as a type."""
        if self.type.kind:
            return f"As<{self.type.kind}>"
        if self.presence == "D" and self.type.records:
            return f"Default{self.type.text}"
        return READERS[self.presence]

    def names(self):
        """The name that the member is read by, or that and its alias."""
        return f'("{self.name}", "{self.second}")' if self.second else f'"{self.name}"'

    def writes(self):
        if self.type.kind:
            return f'write_optional_as::<{self.type.kind}, {self.type.rust}>(&mut members, NAME, "{self.name}", &self.{self.field})'
        return f'write_{WRITE[self.presence]}(&mut members, "{self.name}", &self.{self.field})'

    def copies(self):
        """How the member is copied; nothing where its type is Copy, so that the field itself is one."""
        if self.type.copy:
            return None
        if self.type.kind:
            return f"copy_optional_as::<{self.type.kind}, {self.type.rust}>(&self.{self.field}, alloc)"
        return f"copy_optional(&self.{self.field}, alloc)" if self.optional else f"self.{self.field}.copy(alloc)"

    def copy_call(self):
        """The function by which the member is copied."""
        return "copy_optional_as" if self.type.kind else "copy_optional" if self.optional else "copy"


class Record:
    # marks of one word
    FLAGS = ("whole", "copy", "calls")
    # lists of words
    LISTS = ("required", "long", "by_hand", "fixed")
    # a text
    TEXTS = ("about", "display", "above")

    def __init__(self, name, book):
        self.name, self.word, self.book = name, snake(name), book
        self.defaults, self.members, self.reexports = {}, [], {}
        for mark in self.FLAGS:
            setattr(self, mark, False)
        for mark in self.LISTS:
            setattr(self, mark, [])
        for mark in self.TEXTS:
            setattr(self, mark, "")

    def described(self, word, rest):
        """Takes one line of its description."""
        if word in self.FLAGS:
            setattr(self, word, True)
        elif word in self.LISTS:
            setattr(self, word, rest.split())
        elif word in self.TEXTS:
            setattr(self, word, rest)
        elif word == "default":
            field, rest = rest.split(None, 1)
            self.defaults[field] = tuple(rest.split(" | "))
        elif word == "public":
            part, *items = rest.split()
            self.reexports[part] = items
        elif word in READERS:
            self.members.append(Member(word, *rest.split(None, 3), self.book))
        else:
            raise SystemExit(f"{self.book.path}: no such word: {word} {rest}")

    def fill_defaults(self):
        for m in self.members:
            if m.field in self.defaults:
                continue
            if m.type.default and (m.presence == "D" or not m.optional and self.whole):
                self.defaults[m.field] = m.type.default[:2]
            elif not m.optional and self.whole and m.type.records:
                self.defaults[m.field] = (f"{m.type.text}::try_default(alloc)?", f"default_{snake(m.type.text)}")

    def parts(self):
        """The records that its members hold, each with its crate."""
        names = []
        for member in self.members:
            names += [n for n in member.type.records if n not in names]
        return [(n, self.book.crate_of(n)) for n in names]

    def enums(self):
        """The closed names that its members hold."""
        return sorted({n for m in self.members for n in m.type.names})

    def words(self):
        """What the types of its members name, other than records and closed names."""
        return set().union(*(m.type.words for m in self.members))

    def own_equality(self):
        """Whether its equality is an `impl` of its own: it holds an object of any values."""
        return any(m.type.kind == "FreeValues" for m in self.members)

    def default_lemmas(self):
        """The lemmas by which the defaults of its members, and of the records in them, are well formed."""
        found = {m.absent()[1] for m in self.members if m.presence == "D"}
        for name, _ in self.parts():
            part = self.book.found(name)
            found |= part.default_lemmas() if part else set()
        return found

    def default_is_in_a_shape(self):
        """Whether another record's shape names its default, so that it is specified beside the shapes."""
        return any(m.presence == "D" and m.type.text == self.name for book in self.book.all() for r in book.records for m in r.members)


class Book:
    """The records of one crate, as a file of tools/records describes them."""

    def __init__(self, path):
        self.path = path
        self.crate, self.records, self.below, self.names, self.takes, self.words = "", [], {}, {}, {}, {}
        texts = [open(it).read() for it in self.paths()]
        self.copies = set(re.findall(r"(?m)^record (\w+)\n(?:(?!record ).*\n)*?copy$", "\n".join(texts)))
        for line in open(path):
            line = line.strip()
            if line and not line.startswith("#"):
                self.described(*line.partition(" ")[::2])
        for record in self.records:
            record.fill_defaults()

    def described(self, word, rest):
        """Takes one line of the description."""
        if word == "crate":
            self.crate = rest
        elif word in ("from", "names"):
            crate, *names = rest.split()
            (self.below if word == "from" else self.names).update({n: crate for n in names})
        elif word in ("takes", "words"):
            path, *items = rest.split()
            getattr(self, word).setdefault(path, []).extend(items)
        elif word == "record":
            self.records.append(Record(rest, self))
        else:
            self.records[-1].described(word, rest)

    def paths(self):
        return sorted(glob.glob(os.path.join(os.path.dirname(self.path), "*.records")))

    def source(self):
        """Its path in the repository."""
        return "tools/records/" + os.path.basename(self.path)

    def all(self):
        """All books, this one as it is."""
        return [self if path == self.path else Book.beside(path) for path in self.paths()]

    def found(self, name):
        """The record of this name, of this book or of one beside it, if it is described."""
        books = sorted(self.all(), key=lambda book: book is not self)
        return next((r for book in books for r in book.records if r.name == name), None)

    @staticmethod
    @functools.lru_cache(None)
    def beside(path):
        return Book(path)

    @staticmethod
    def of_folder(folder):
        """All books of a folder."""
        return [Book.beside(path) for path in sorted(glob.glob(os.path.join(folder, "*.records")))]

    def crate_of(self, name):
        return self.below.get(name, self.crate)

    def default_home(self, name):
        """The crate that specifies the default of a record."""
        part = self.found(name)
        return "oci_shapes" if part and part.default_is_in_a_shape() else self.crate_of(name)
