"""Commands of several parts, `tools/COMMAND PART ..`: each part is a module of commands/COMMAND.

A part's module has its help as its text, and `run(options)`, which returns the exit status. What it is asked beside `--check` is in
`options_of(parser)`; where it writes nothing, `CHECKS = False` leaves `--check` out.
"""
import argparse
import importlib
import sys


def module_of(command, part):
    return importlib.import_module(f"commands.{command}.{part}")


def parser_of(command, part, module):
    """What reads the options of a part."""
    how = argparse.RawDescriptionHelpFormatter
    parser = argparse.ArgumentParser(prog=f"tools/{command} {part}", description=module.__doc__, formatter_class=how)
    if getattr(module, "CHECKS", True):
        parser.add_argument("--check", action="store_true", help="write nothing; the status is 1 where something is not as it should be")
    if hasattr(module, "options_of"):
        module.options_of(parser)
    return parser


def described(command, parts):
    """A line on each part: the first of its help."""
    width = max(map(len, parts))
    return "\n".join(f"  {part:{width}}  {module_of(command, part).__doc__.split(chr(10))[0]}" for part in parts)


def run(command, about, parts, unasked, arguments):
    """Runs the parts that the first arguments name, or those of `unasked`, with the other arguments. Returns the exit status."""
    count = next((at for at, word in enumerate(arguments) if word not in parts), len(arguments))
    named, options = arguments[:count], arguments[count:]
    asks_help = not named and ({"--help", "-h"} & set(options) or not unasked)
    if asks_help or not named and [it for it in options if it != "--check"]:
        print(f"{about.strip()}\n\n{described(command, parts)}", file=sys.stdout if asks_help else sys.stderr)
        return 0 if {"--help", "-h"} & set(options) else 2
    status = 0
    for part in named or unasked:
        module = module_of(command, part)
        own = parser_of(command, part, module).parse_args(options)
        if len(named or unasked) > 1:
            print(f"{part}:", flush=True)
        status = max(status, module.run(own) or 0)
    return status
