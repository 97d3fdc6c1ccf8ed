"""The sentences of the specifications that rules have their levels from, looked up in the texts.

  tools/peers sources FOLDER [--print VERSION/FILE#HEADING]

FOLDER has a folder for each version of a text, as image-1.1.1 and runtime-1.2.1, with its Markdown files. A line of tools/rules/sources.rows
is a sentence of a rule of tools/rules/*.rules, or of agreements.rows, by its place and checksum, or the reason for a rule that no sentence asks for:

  NAME | VERSION | FILE#HEADING | WORD | CHECKSUM
  NAME | - | - | - | REASON

  NAME          the rule; each has a line, and its first one gives its level
  VERSION       the folder of the text
  FILE#HEADING  the heading that the sentence is under, or one above that
  WORD          the word of RFC 2119 in the sentence, capitals or not: must, must not, required (the level is must), should, should not,
                recommended, not recommended, deprecated (should), may (host); `-` for a sentence without MUST and SHOULD that says what a
                document has (stated)
  CHECKSUM      the first 16 hexadecimal digits of the sentence's SHA-256
  REASON        a manual page with its section, what in the kernel or a runtime refuses the document, or `hint:` and why (host); `should:`
                and why, of a list that grows (should); that the text is not at hand (any level)

A sentence: what is under a heading is cut at empty lines, list items, rows of tables (lines with ` | ` in them), headings and code blocks,
which are left out. The lines of a paragraph or item are joined, without the mark in front, and runs of white space are one blank. Then a
period with a blank behind it ends a sentence, and belongs to it. --print prints each sentence under a heading behind its checksum.

Printed are each line that is not so, each rule without a line, and each section of a rule that no version of its text has; then the rules
whose level or section is not that of their sentences, and those whose text FOLDER lacks. The last line counts the lines and what is wrong.
The status is 1 if anything is wrong; where levels and sections differ and nothing else, it is 0.
"""
import os

from comparisons import sentences
from repository import at
from rule_books import agreements
from rule_books.model import Model
from rule_books.sources import WORDS, differing, orphans, rows as rows_of

CHECKS = False


def fault(row, top):
    """What is wrong with a row; nothing where it is as it says."""
    if not row.is_whole:
        return "a row has five cells"
    if row.is_reason():
        return "" if row.place == row.word == "-" and row.last not in ("", "-") else "without a version there is a reason alone"
    if row.word not in WORDS:
        return f"no word {row.word}"
    if not os.path.isdir(os.path.join(top, row.version)):
        return f"no folder {row.version}"
    found = sentences.under(os.path.join(top, row.version), row.place)
    if found is None:
        return f"{row.version} has no {row.place}"
    sentence = next((it for it in found if sentences.checksum(it) == row.last), None)
    if sentence is None:
        return "no such sentence"
    if not sentences.has_word(sentence, row.word):
        return f"the word is not in its sentence: {sentence}" if row.word != "-" else f"its sentence has a word: {sentence}"
    return ""


def section(description):
    """The text and the place of a rule's section; nothing of a manual page, or of common practice."""
    text, _, place = description.section.partition(" ")
    return (text, place) if "#" in place else None


def wrongs(top, rules, rows):
    """What is wrong with rows and rules, a line each."""
    for row in rows:
        wrong = fault(row, top)
        if wrong:
            yield f"{row.text}: {wrong}"
    yield from orphans(rules, rows)
    for name, lines in rules.items():
        for text, place in dict.fromkeys(filter(None, map(section, lines))):
            folders = sentences.folders(top, text)
            if folders and not any(sentences.under(it, place) for it in folders):
                yield f"{name}: no {text} text has {place}"


def sections(rules, rows):
    """The rules with sentences of which none is in their section."""
    for name, lines in rules.items():
        places = {row.place for row in rows if row.name == name and row.version != "-"}
        own = {it[1] for it in filter(None, map(section, lines))}
        if places and not places & own:
            yield f"{name}: {', '.join(sorted(own)) or 'no section'}, and its sentence is in {', '.join(sorted(places))}"


def unread_rules(top, rules):
    """The rules whose section is of a text that is not there."""
    return [name for name, lines in rules.items() if section(lines[0]) and not sentences.folders(top, section(lines[0])[0])]


def print_list(title, lines):
    if lines:
        print(f"{title}:\n" + "\n".join(f"  {it}" for it in lines))


def print_sentences(top, name):
    """Prints the sentences under a heading. Returns the exit status."""
    version, _, place = name.partition("/")
    found = sentences.under(os.path.join(top, version), place)
    for sentence in found or ():
        print(sentences.checksum(sentence), sentence)
    if found is None:
        print(f"{top} has no {name}")
    return int(found is None)


def options_of(parser):
    parser.add_argument("folder", metavar="FOLDER")
    parser.add_argument("--print", metavar="VERSION/FILE#HEADING", help="print the sentences under this heading, with their checksums")


def run(options):
    if options.print:
        return print_sentences(options.folder, options.print)
    rules, rows = Model(at("tools/rules")).rules() | agreements.rules(at(".")), rows_of(at("."))
    wrong, unread = list(wrongs(options.folder, rules, rows)), unread_rules(options.folder, rules)
    for line in wrong:
        print(line)
    print_list("levels that differ from their sentence", list(differing(rules, rows)))
    print_list("sections that differ from their sentence", list(sections(rules, rows)))
    print_list("rules whose text is not there", unread)
    print(f"{len(rows)} rows, {len(wrong)} wrong")
    return int(bool(wrong))
