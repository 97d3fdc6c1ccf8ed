"""The header bindings/c/ciderglen.h and the manual page bindings/c/ciderglen.3, from the sources of crates/oci_ffi.

These are its constants, structures and functions, with their comments. With --check it prints the first lines that differ.
"""
import os
import re
import sys

from generator.text import snake
from repository import at, brought_up_to_date, read

SOURCES = "crates/oci_ffi/src"
HEADER = "bindings/c/ciderglen.h"
PAGE = "bindings/c/ciderglen.3"
# the files with functions, in the order of the header
FUNCTIONS = ["interface", "document", "violations", "rules", "digest", "reference", "pinning", "content"]
# the numbers, in the order of the manual page: its heading, what stands before each name, and the file
NUMBERED = [
    ("STATUSES", "CIDERGLEN_", "status"),
    ("KINDS OF DOCUMENTS", "CIDERGLEN_KIND_", "kind"),
    ("LEVELS OF RULES", "CIDERGLEN_LEVEL_", "level"),
    ("PLATFORMS", "CIDERGLEN_PLATFORM_", "platform"),
]
WIDTH = 116

BEGINNING = """\
/* Written by tools/gen header from crates/oci_ffi; do not edit.
 *
 * Ciderglen: canonical form and validation of the JSON documents of the Open Container Initiative, image references and
 * digests. Copyright of the Ciderglen authors, Apache-2.0.
 *
 * Each function
 * - returns a status (enum ciderglen_status) and keeps no state: any thread may call any function at any time;
 * - takes its input as a pointer and a length in bytes, with no zero byte behind it;
 * - writes its output to a buffer of the caller's, a pointer and a capacity in bytes, with no zero byte behind it, and returns
 *   the length of the output in `*output_len`. If the output does not fit, the status is CIDERGLEN_BUFFER_TOO_SMALL, the buffer
 *   is unchanged and `*output_len` is the capacity that is needed. After any other status but CIDERGLEN_DONE the buffer is
 *   unchanged and `*output_len` is 0. Bytes of the buffer behind the output are unchanged in any case;
 * - allocates with malloc, realloc and free of this process, frees all that it allocates before it returns, and returns
 *   CIDERGLEN_OUT_OF_MEMORY if an allocation fails. There is nothing for a caller to free.
 *
 * A list, which ciderglen_violations and ciderglen_broken_rules write, is fields, one behind the other to the end of the output. A
 * field is the length of a text in eight bytes, the lowest first, and the text, which is UTF-8 and may hold any character, zero bytes
 * and newlines, too. ciderglen_next_field steps through a list:
 *
 *     const uint8_t *cursor = buffer, *end = buffer + output_len;
 *     struct ciderglen_field pointer, expected;
 *     while (ciderglen_next_field(&cursor, end, &pointer) && ciderglen_next_field(&cursor, end, &expected)) { .. }
 *
 * A caller has to keep these rules, which nothing checks:
 * - no pointer is NULL, even if its length or capacity is 0;
 * - an output (buffer, `*output_len` and so on) overlaps neither the input nor another output, and no other thread uses it
 *   during the call;
 * - no length or capacity is above PTRDIFF_MAX;
 * - 256 KiB of stack are free at a call;
 * - no function is called from a signal handler, or in the forked child of a process with threads. */
#ifndef CIDERGLEN_H
#define CIDERGLEN_H

#include <stddef.h>
#include <stdint.h>

#ifdef __cplusplus
extern "C" {
#endif
"""

# how a list is read, behind the numbers and before the functions
FIELDS = """
/* A text of a list, with no zero byte behind it. */
struct ciderglen_field {
    const uint8_t *text;
    size_t text_len;
};

/* Reads the field that begins at `*cursor`, and moves `*cursor` behind it. Returns 1, or 0 if no whole field stands there before
 * `end`: at the end of a list. Then nothing is changed. It reads nothing behind `end`, whatever the bytes are. */
static inline int ciderglen_next_field(const uint8_t **cursor, const uint8_t *end, struct ciderglen_field *field) {
    size_t left = (size_t)(end - *cursor);
    uint64_t text_len = 0;
    int i;
    if (left < 8) return 0;
    for (i = 7; i >= 0; i--) text_len = text_len << 8 | (*cursor)[i];
    if (text_len > left - 8) return 0;
    field->text = *cursor + 8;
    field->text_len = (size_t)text_len;
    *cursor = field->text + field->text_len;
    return 1;
}
"""

END = """
#ifdef __cplusplus
}
#endif

#endif
"""

NUMBERS = {"u32": "uint32_t", "u64": "uint64_t", "usize": "size_t"}


def source(name):
    return read(f"{SOURCES}/{name}.rt")


def comment(lines, indent=""):
    """A comment of doc lines."""
    texts = [re.sub(r"^ ", "", line) for line in lines]
    if len(texts) == 1 and len(indent + texts[0]) < WIDTH:
        return f"{indent}/* {texts[0]} */\n"
    rest = "".join(f"{indent} *{' ' if text else ''}{text}\n" for text in texts[1:])
    return f"{indent}/* {texts[0]}\n{rest}".rstrip("\n") + " */\n"


def constants(name):
    """The public constants of a file: name, number and doc lines."""
    found = re.findall(r"((?:^///[^\n]*\n)+)pub const (\w+): u32 = (\d+);", source(name), re.M)
    return [(it, number, re.findall(r"^///(.*)$", docs, re.M)) for docs, it, number in found]


def enum(title, name, prefix, file):
    """An enum of a file's constants, which are the C names behind the prefix."""
    lines = "".join(comment([line.replace("`REFERENCE", f"`{prefix}REFERENCE") for line in docs], "    ") + f"    {prefix}{it} = {number},\n" for it, number, docs in constants(file))
    return f"\n/* {title} */\nenum {name} {{\n{lines.rstrip().rstrip(',')}\n}};\n"


def struct(docs, name, body):
    """A structure."""
    fields = "".join(f"    {NUMBERS[kind]} {field};\n" for field, kind in re.findall(r"pub (\w+): (\w+),", body))
    return f"\n{comment(re.findall(r'^///(.*)$', docs, re.M))}struct {snake(name)} {{\n{fields}}};\n"


def parameter(name, kind):
    """What C passes for a parameter."""
    if kind == "Global":
        return []
    if kind == "&[u8]":
        return [f"const uint8_t *{name}", f"size_t {name}_len"]
    if kind == "&mut [u8]":
        return [f"uint8_t *{name}", f"size_t {name}_capacity"]
    if kind in NUMBERS:
        return [f"{NUMBERS[kind]} {name}"]
    pointed = kind.removeprefix("&mut ")
    if kind.startswith("&mut ") and pointed in NUMBERS:
        return [f"{NUMBERS[pointed]} *{name}"]
    if kind.startswith("&mut Ciderglen"):
        return [f"struct {snake(pointed)} *{name}"]
    sys.exit(f"tools/gen header: no type of C is known for {kind}")


def prototype(name, parameters, result):
    """A function as C declares it."""
    pairs = [it.split(":", 1) for it in re.split(r",\s*", parameters.strip().rstrip(",")) if it]
    passed = [one for it, kind in pairs for one in parameter(it.strip(), kind.strip())] or ["void"]
    begin = f"{NUMBERS[result]} {name}("
    lines = [begin]
    for index, one in enumerate(passed):
        one += ", " if index + 1 < len(passed) else ");"
        if len(lines[-1] + one) > WIDTH:
            lines[-1] = lines[-1].rstrip()
            lines.append(" " * len(begin))
        lines[-1] += one
    return "\n".join(lines) + "\n"


def functions(name):
    """The exported functions of a file: doc lines, name and prototype."""
    found = re.findall(r'((?:^///[^\n]*\n)+)#\[unsafe\(no_mangle\)\]\npub extern "C" fn (\w+)\((.*?)\) -> (\w+)', source(name), re.M | re.S)
    return [(re.findall(r"^/// ?(.*)$", docs, re.M), it, prototype(it, parameters, result)) for docs, it, parameters, result in found]


def header():
    """The whole header, and what is wrong with the sources."""
    parts, known = [BEGINNING], 0
    (interface, number, docs), = constants("interface")
    parts.append(f"\n{comment(docs)}#define CIDERGLEN_{interface} {number}\n")
    parts.append(enum("Statuses.", "ciderglen_status", "CIDERGLEN_", "status"))
    parts.append(enum("Kinds of documents.", "ciderglen_kind", "CIDERGLEN_KIND_", "kind"))
    parts.append(enum("Levels of rules, each with those above it.", "ciderglen_level", "CIDERGLEN_LEVEL_", "level"))
    parts.append(enum("Platforms.", "ciderglen_platform", "CIDERGLEN_PLATFORM_", "platform"))
    parts.append(FIELDS)
    for name in FUNCTIONS:
        text = source(name)
        parts += [struct(*it) for it in re.findall(r"((?:^///[^\n]*\n)+)#\[repr\(C\)\]\n(?:#[^\n]*\n)*pub struct (\w+) \{\n(.*?)\n?\}", text, re.M | re.S)]
        found = functions(name)
        parts += [f"\n{comment(docs)}{declared}" for docs, _, declared in found]
        known += len(found)
    exported = sum(source(file[:-3]).count("no_mangle") for file in os.listdir(at(SOURCES)) if file.endswith(".rt"))
    if known != exported:
        sys.exit(f"tools/gen header: {exported} functions are exported, and {known} were read")
    return "".join(parts) + END


def roff(text):
    """A text as the manual page has it."""
    text = text.replace("\\", "\\e").replace("-", "\\-").replace("`", "")
    return re.sub(r"^([.'])", r"\\&\1", text, flags=re.M)


def paragraphs(lines):
    """Doc lines, as paragraphs, items of lists and lines of code."""
    text = ""
    for line in lines:
        if line.startswith("- "):
            text += f".IP \\(bu 2\n{roff(line[2:])}\n"
        elif line.startswith("    "):
            text += f".nf\n{roff(line)}\n.fi\n"
        else:
            text += f"{roff(line.strip())}\n" if line.strip() else ".PP\n"
    return text.replace(".fi\n.nf\n", "")


def next_field():
    """The function of the header itself: doc lines, name and prototype."""
    docs, declared = re.search(r"/\* ((?:(?!\*/).)*) \*/\n(static inline [^{]*\)) \{", FIELDS, re.S).groups()
    return [re.sub(r"^ \* ?", "", line) for line in docs.split("\n")], "ciderglen_next_field", f"{declared};\n"


def page():
    """The whole manual page."""
    about = [line[3:] for line in BEGINNING.split("*/")[0].split("\n")[5:]]
    listed = [it for name in FUNCTIONS for it in functions(name)] + [next_field()]
    text = '.\\" Written by tools/gen header from crates/oci_ffi; do not edit.\n.TH CIDERGLEN 3 "" Ciderglen\n.SH NAME\n'
    text += "ciderglen \\- canonical form and validation of Open Container Initiative documents\n.SH SYNOPSIS\n.nf\n#include <ciderglen.h>\n\n"
    text += roff("\n".join(declared for _, _, declared in listed)) + ".fi\n.SH DESCRIPTION\n" + paragraphs(about)
    for docs, name, _ in listed:
        text += f".SS {name}\n{paragraphs(docs)}"
    for title, prefix, file in NUMBERED:
        text += f".SH {title}\n"
        text += "".join(f".TP\n.B {prefix}{it}\n{roff(' '.join(line.strip() for line in docs))}\n" for it, _, docs in constants(file))
    return text


def run(options):
    return brought_up_to_date({HEADER: header(), PAGE: page()}, options.check)
