"""The completions of `ciderglen` in bash, zsh and fish.

What an option or argument takes is by its value's name: a file, a folder, a rule's name, a kind of documents or a rule's name, or one of
the values that its help lists. Names of rules are asked of the program itself, as it is installed, when they are wanted.
"""
FILES, FOLDERS, RULES = "FILE", "DIR", "RULE"
# what the names of values stand for; another takes a text that nothing is known of
KNOWN = {"FILE": FILES, "A": FILES, "B": FILES, "DIR": FOLDERS, "IMAGE": FILES, "RULE": RULES, "NAME": RULES}
# prints the names of all rules: `ciderglen rules` has each on a line that is indented
NAMES_OF_RULES = "command ciderglen rules 2>/dev/null | sed -n 's/^  \\([a-z0-9-]\\{1,\\}\\) .*/\\1/p' | sort -u"

BASH_BEGINNING = """_ciderglen_words() {
    mapfile -t COMPREPLY < <(compgen -P "$begun" -W "$1" -- "$word")
}

_ciderglen_rules() {
    _ciderglen_words "$1 $(%s)"
}

# Names of files and folders are left to readline, which quotes them. Behind `--OPTION=` it has no such word where = is none of the
# characters that break words.
_ciderglen_paths() {
    if [ -n "$begun" ]; then
        mapfile -t COMPREPLY < <(compgen -P "$begun" -A "$1" -- "$word")
    elif [ "$1" = directory ]; then
        compopt -o dirnames
    else
        compopt -o default
    fi
}

_ciderglen() {
    local word=${COMP_WORDS[COMP_CWORD]} before=${COMP_WORDS[COMP_CWORD-1]} begun=''
    COMPREPLY=()
    # --OPTION=VALUE is three words, or one where = does not break words
    if [ "$word" = = ]; then
        word=''
    elif [ "$before" = = ] && [ "$COMP_CWORD" -gt 2 ]; then
        before=${COMP_WORDS[COMP_CWORD-2]}
    elif [[ $word == --*=* ]]; then
        before=${word%%%%=*} begun=${word%%%%=*}= word=${word#*=}
    fi
    if [ "$COMP_CWORD" -eq 1 ]; then
        _ciderglen_words "%s"
        return
    fi
"""

FISH_BEGINNING = """function __ciderglen_is -d 'Whether this is the command that is typed'
    set -l words (commandline -opc)
    test (count $words) -ge 2; and test "$words[2]" = $argv[1]
end

function __ciderglen_rules -d 'The names of all rules'
    %s
end
"""


def kind_of(row):
    return KNOWN.get(row.value())


def takes(page, kind):
    """Whether an argument of the command is of this kind."""
    return any(kind_of(row) == kind for row in page.rows("Arguments"))


def options_of(page):
    return [name for row in page.rows("Options") for name in row.names()]


def values_of(page):
    """The values that the arguments of the command may have, as far as they are known."""
    return [value for row in page.rows("Arguments") for value in row.values()]


def kinds_of(commands):
    return " ".join(values_of(commands["schema"]))


def bash_reply(row, commands):
    """What replies with the values of an option; nothing where nothing is known of them."""
    if row.values():
        return f'_ciderglen_words "{" ".join(row.values())}"'
    return {FILES: "_ciderglen_paths file", FOLDERS: "_ciderglen_paths directory", RULES: f'_ciderglen_rules "{more_of(row, commands)}"'}.get(kind_of(row), ":")


def more_of(row, commands):
    """What a name may be beside that of a rule: a kind of documents."""
    return kinds_of(commands) if row.value() == "NAME" else ""


def bash(note, top, commands):
    words = " ".join([*commands, "help", *options_of(top)])
    lines = [f"# {note}", *(BASH_BEGINNING % (NAMES_OF_RULES, words)).rstrip("\n").split("\n"), "    case ${COMP_WORDS[1]}:$before in"]
    for command, page in commands.items():
        for row in (it for it in page.rows("Options") if it.value()):
            lines.append(f"        {' | '.join(f'{command}:{name}' for name in row.names())})")
            lines += [f"            {bash_reply(row, commands)}", "            return", "            ;;"]
    lines += ["    esac", "    if [[ $word == -* ]]; then", "        case ${COMP_WORDS[1]} in"]
    lines += [f'            {command}) _ciderglen_words "{" ".join(options_of(page))}" ;;' for command, page in commands.items()]
    lines += ["        esac", "        return", "    fi", "    case ${COMP_WORDS[1]} in"]
    for command, page in commands.items():
        row = next((it for it in page.rows("Arguments") if it.values() or kind_of(it)), None)
        if row:
            lines.append(f"        {command}) {bash_reply(row, commands)} ;;")
    lines += [f'        help) _ciderglen_words "{" ".join(commands)}" ;;', "    esac", "}", "complete -F _ciderglen ciderglen"]
    return "\n".join(lines) + "\n"


def quoted(text):
    return "'" + text.replace("'", "'\\''") + "'"


def zsh_action(row, commands):
    if row.values():
        return f"({' '.join(row.values())})"
    rules = "->names" if more_of(row, commands) else "->rules"
    return {FILES: "_files", FOLDERS: "_files -/", RULES: rules}.get(kind_of(row), " ")


def zsh_options(row, commands):
    """The descriptions of an option for `_arguments`, one for each of its names, of which one may be given."""
    names, text = row.names(), row.summary().replace("[", "(").replace("]", ")").replace(":", "\\:")
    others = "*" if row.is_many() else f"({' '.join(names)})"
    for name in names:
        if row.value():
            yield quoted(f"{others}{name}{'=' if name.startswith('--') else '+'}[{text}]:{row.value()}:{zsh_action(row, commands)}")
        else:
            yield quoted(f"{others}{name}[{text}]")


def zsh_arguments(page, commands):
    for at, row in enumerate(page.rows("Arguments"), 1):
        yield quoted(f"{'*' if row.is_many() else at}:{row.value()}:{zsh_action(row, commands)}")


def zsh(note, top, commands):
    lines = ["#compdef ciderglen", f"# {note}", "", "_ciderglen_rules() {", "    local -a rules", f"    rules=($({NAMES_OF_RULES}))",
             "    compadd \"$@\" -a rules", "}", "", "_ciderglen() {", "    local curcontext=$curcontext state line", "    local -a commands",
             "    commands=("]
    lines += [f"        {quoted(f'{command}:{page.about}')}" for command, page in commands.items()]
    lines += ["        'help:Explains a command'", "    )", "    if (( CURRENT == 2 )); then", "        if [[ $words[2] == -* ]]; then", "            _arguments \\"]
    lines += [f"                {it} \\" for row in top.rows("Options") for it in zsh_options(row, commands)]
    lines[-1] = lines[-1].removesuffix(" \\")
    lines += ["        else", "            _describe command commands", "        fi", "        return", "    fi", "    local command=$words[2]",
              "    shift words", "    (( CURRENT-- ))", "    case $command in"]
    for command, page in commands.items():
        specs = [it for row in page.rows("Options") for it in zsh_options(row, commands)] + list(zsh_arguments(page, commands))
        lines += [f"        {command})", "            _arguments -C -s -S \\", *(f"                {it} \\" for it in specs)]
        lines[-1] = lines[-1].removesuffix(" \\")
        lines.append("            ;;")
    lines += ["        help) (( CURRENT == 2 )) && _describe command commands ;;", "    esac", "    case $state in", "        rules) _ciderglen_rules ;;",
              "        names)", "            _ciderglen_rules", f"            compadd {kinds_of(commands)}", "            ;;", "    esac", "}", "", '_ciderglen "$@"']
    return "\n".join(lines) + "\n"


def fish_values(row, commands):
    if row.values():
        return f"-x -a {quoted(' '.join(row.values()))}"
    rules = f"-x -a {quoted(f'{more_of(row, commands)} (__ciderglen_rules)'.strip())}"
    return {FILES: "-r -F", FOLDERS: "-x -a '(__fish_complete_directories)'", RULES: rules}.get(kind_of(row), "-x")


def fish_arguments(page, commands):
    """What the arguments of a command may be, beside files."""
    row = next((it for it in page.rows("Arguments") if it.values() or kind_of(it)), None)
    if row is None:
        return "-f"
    return "-F" if kind_of(row) == FILES else "-f -a " + fish_values(row, commands).split(" -a ")[1]


def fish(note, top, commands):
    lines = [f"# {note}", *(FISH_BEGINNING % NAMES_OF_RULES).split("\n"), "complete -c ciderglen -n __fish_use_subcommand -f"]
    lines += [f"complete -c ciderglen -n __fish_use_subcommand{names} -d {quoted(row.summary())}" for row, names in fish_options(top)]
    lines += [f"complete -c ciderglen -n __fish_use_subcommand -a {command} -d {quoted(page.about)}" for command, page in commands.items()]
    lines += ["complete -c ciderglen -n __fish_use_subcommand -a help -d 'Explains a command'",
              f"complete -c ciderglen -n '__ciderglen_is help' -f -a '{' '.join(commands)}'"]
    for command, page in commands.items():
        head = f"complete -c ciderglen -n '__ciderglen_is {command}'"
        for row, names in fish_options(page):
            lines.append(f"{head}{names}{f' {fish_values(row, commands)}' if row.value() else ''} -d {quoted(row.summary())}")
        lines.append(f"{head} {fish_arguments(page, commands)}")
    return "\n".join(lines) + "\n"


def fish_options(page):
    for row in page.rows("Options"):
        yield row, (f" -s {row.short()}" if row.short() else "") + (f" -l {row.long()}" if row.long() else "")
