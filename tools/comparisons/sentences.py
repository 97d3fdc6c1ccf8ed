"""Sentences of the specifications' texts, which are Markdown: those under a heading, their checksums, and RFC 2119's words in them.

What a sentence is, `tools/peers sources --help` says.
"""
import functools
import glob
import hashlib
import os
import re

ITEM = re.compile(r"(?:[-*]|\d+\.)\s")
MARK = re.compile(r"^(?:[-*]|\d+\.|>)\s+")
# where a word of RFC 2119 stands as such, if that is not wherever it stands
AS_SUCH = {"must": r"must(?! not\b)", "should": r"should(?! not\b)", "recommended": r"(?<!not )recommended"}


def checksum(sentence):
    return hashlib.sha256(sentence.encode()).hexdigest()[:16]


def anchor(heading):
    """The anchor of a heading, which may have HTML and emphasis."""
    plain = re.sub(r"<[^>]*>|[_*`]", "", heading).strip().lower()
    return re.sub(r"[^\w -]", "", plain).replace(" ", "-")


def blocks(lines):
    """The paragraphs, list items and rows of tables of a text, each on one line."""
    found, fenced = [[]], False
    for line in lines:
        text = line.strip()
        fence, is_row = text.startswith("```"), " | " in text
        fenced ^= fence
        is_none = not text or fence or fenced
        if is_none or is_row or ITEM.match(text):
            found.append([])
        if not is_none:
            found[-1].append(MARK.sub("", text))
        if is_row:
            found.append([])
    return [" ".join(" ".join(it).split()) for it in found if it]


def sentences(lines):
    return [it for block in blocks(lines) for it in re.split(r"(?<=\.) ", block)]


def sections(text):
    """The sentences under each heading up to the next one that is not below it, by its anchor; those of equal headings together."""
    lines, heads, fenced = text.split("\n"), [], False
    for number, line in enumerate(lines):
        fenced ^= line.strip().startswith("```")
        found = re.match(r"(#+) (.*)", line)
        if found and not fenced:
            heads.append((number, len(found[1]), anchor(found[2])))
            lines[number] = ""
    out = {}
    for at, (number, depth, name) in enumerate(heads):
        end = next((it[0] for it in heads[at + 1 :] if it[1] <= depth), len(lines))
        out.setdefault(name, []).extend(sentences(lines[number:end]))
    return out


@functools.lru_cache(None)
def sections_of(path):
    with open(path, encoding="utf-8") as file:
        return sections(file.read())


def under(folder, place):
    """The sentences under FILE#HEADING of a folder of texts; nothing where there is no such heading."""
    name, _, heading = place.partition("#")
    path = os.path.join(folder, name)
    return sections_of(path).get(heading) if os.path.exists(path) else None


def folders(top, text):
    """The folders with versions of a text: `image` has image-1.1.1 and others."""
    return sorted(glob.glob(os.path.join(glob.escape(top), f"{text}-*")))


def has_word(sentence, word):
    """Whether the word is in a sentence, `must` and no `must not`. `-` is in one without MUST and SHOULD."""
    if word == "-":
        return not re.search(r"\b(?:MUST|SHOULD)\b", sentence)
    return bool(re.search(rf"\b{AS_SUCH.get(word, word)}\b", sentence.lower()))
