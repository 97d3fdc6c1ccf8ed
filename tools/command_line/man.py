"""The man page of `ciderglen`."""
import re

ITEM = re.compile(r"^ {2}(\S+) +(.*)$")


def roff(text):
    """A text as roff reads it: no character of it is a request or turns into another."""
    text = text.replace("\\", "\\e").replace("-", "\\-").replace("'", "\\(aq").replace("`", "\\(ga").replace("^", "\\(ha").replace("~", "\\(ti")
    return f"\\&{text}" if text.startswith(".") else text


def text_of(row):
    """The text of an argument or option, with its list of words if it has one."""
    lines, is_listed = [], False
    for line in row.lines:
        item = ITEM.match(line)
        if item:
            lines += ([] if is_listed else [".RS"]) + [".TP", f".B {roff(item.group(1))}", roff(item.group(2))]
        elif is_listed and not line.startswith(" "):
            lines += [".RE", ".IP", roff(line)]
        else:
            lines.append(roff(line.strip()))
        is_listed = bool(item) or is_listed and line.startswith(" ")
    return lines + ([".RE"] if is_listed else [])


def rows_of(rows):
    for row in rows:
        yield from [".TP", f".B {roff(row.shown)}", *text_of(row)]


def page(top, commands, version, examples):
    """The man page; `examples` are pairs of what is done and the command for it."""
    lines = [f'.TH CIDERGLEN 1 "" "{version}"', ".SH NAME", roff(f"ciderglen - {top.about[0].lower()}{top.about[1:]}"), ".SH SYNOPSIS", ".nf"]
    lines += [f".B {roff(it.usage)}" for it in commands.values()]
    lines += [".fi", ".SH COMMANDS"]
    for it in commands.values():
        lines += [f".SS {roff(it.usage)}", roff(it.about) + ".", *rows_of(it.rows("Arguments") + it.rows("Options"))]
    lines += [".SH OPTIONS", *rows_of(top.rows("Options")), ".SH EXIT STATUS", *rows_of(top.rows("Exit status")), ".SH EXAMPLES"]
    for what, command in examples:
        lines += [".TP", roff(what), ".B " + roff(command)]
    return "\n".join(lines) + "\n"
