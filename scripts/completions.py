"""The completions of scripts/make-commands for bash, zsh and fish. Each function gets the commands and options of
docs/commands.tsv, and yields lines."""

import re

import tree
from command_table import FILE

FILES = "files"
# what the command line calls a file
NAMES = ("FILE", "SCHEDULE", "SENDER", "RECEIVER")
# the values of a word, as a text lists them
LISTED = r"\b([A-Z]+) is ((?:\w+, )*\w+ or \w+)"


def inputs(command):
    """The inputs in their order by name, each with FILES, a list of words, or nothing where it is any text."""
    listed = {name: re.split(", | or ", words) for name, words in re.findall(LISTED, command.reads)}
    return [(name, FILES if name in NAMES else listed.get(name, [])) for name in command.places]


def in_short(command):
    return re.split(r"[,:;(]", command.prints)[0]


# ---- bash

def bash(commands, options):
    yield "# Completes the words of ztso in bash: source scripts/completion.bash. Made by scripts/make-commands."
    yield "_ztso() {"
    yield "    local word=${COMP_WORDS[COMP_CWORD]} last=${COMP_WORDS[COMP_CWORD - 1]} command=${COMP_WORDS[1]}"
    yield "    local at position=0 options='' words='' inputs=()"
    yield "    for ((at = 2; at < COMP_CWORD; at++)); do"
    yield "        case ${COMP_WORDS[at]} in"
    yield f"        {' | '.join(option.name for option in options if not option.value)}) ;;"
    yield "        --*) ((++at)) ;;"
    yield "        *) ((++position)) ;;"
    yield "        esac"
    yield "    done"
    yield "    case $command in"
    yield from map(bash_command, commands)
    yield "    esac"
    yield "    if ((COMP_CWORD == 1)); then"
    yield f"        words='{' '.join(command.name for command in commands)}'"
    yield "    elif ((at > COMP_CWORD)); then"
    yield "        case $last in"
    yield from (f"        {option.name}) words='{' '.join(option.listed)}' ;;" for option in options if option.listed)
    # another command may have an option by the same name for something else
    yield from (f"        {option.name}) [[ ' {' '.join(option.commands)} ' != *\" $command \"* ]] || compopt -o default ;;"
                for option in options if option.values == FILE)
    yield "        esac"
    yield "    elif [[ $word == -* ]]; then"
    yield "        words=$options"
    yield f"    elif [[ ${{inputs[position]-}} == {FILES} ]]; then"
    yield "        compopt -o default"
    yield "    else"
    yield "        words=${inputs[position]-}"
    yield "    fi"
    yield "    # shellcheck disable=SC2207 # the words have no blanks"
    yield '    COMPREPLY=($(compgen -W "$words" -- "$word"))'
    yield "}"
    yield "complete -F _ztso ztso ./ztso scripts/try"
    yield from TOOL_IN_BASH.splitlines()
    yield f"complete -F _ztso_tool {' '.join(f'tools/{tool} ztso-{tool}' for tool in sorted(tree.TOOLS))}"


# a tool says its options and their words itself: bash gives it the tool, the word and the one before
TOOL_IN_BASH = r"""
# Completes the words of a tool by its own help.
_ztso_tool() {
    local help words=''
    help=$("$1" --help 2> /dev/null)
    if [[ $3 == --* ]]; then
        words=$(sed -nE "s/.*[[ ]$3 ([a-z0-9]+([|][a-z0-9]+)+).*/\1/p" <<< "$help")
        words=${words%%$'\n'*}
    fi
    if [[ -n $words ]]; then
        words=${words//|/ }
    elif [[ $2 == -* ]]; then
        words=$(grep -oE -- '--[a-z][a-z-]*' <<< "$help")
    else
        compopt -o default
    fi
    # shellcheck disable=SC2207 # the words have no blanks
    COMPREPLY=($(compgen -W "$words" -- "$2" | sort -u))
}"""


def bash_command(command):
    words = " ".join(kind if kind == FILES else f"'{' '.join(kind)}'" for _, kind in inputs(command))
    options = " ".join(option.name for option in command.options)
    return f"    {command.name}) inputs=({words}) options='{options}' ;;"


# ---- zsh

def zsh(commands, _):
    tools = sorted(tree.TOOLS)
    yield f"#compdef ztso {' '.join(f'ztso-{tool}' for tool in tools)} -p (*/|)tools/({'|'.join(tools)})"
    yield "# Completes the words of ztso and its tools in zsh, as the file _ztso of a folder of fpath. Made by scripts/make-commands."
    yield from TOOL_IN_ZSH.splitlines()
    yield "_ztso() {"
    yield "    if [[ ${words[1]:t} != ztso ]]; then"
    yield "        _ztso_tool"
    yield "        return"
    yield "    fi"
    yield "    if ((CURRENT == 2)); then"
    yield "        local -a commands=("
    yield from (f"            {zsh_quoted(f'{command.name}:{in_short(command)}')}" for command in commands)
    yield "        )"
    yield "        _describe command commands"
    yield "        return"
    yield "    fi"
    yield "    shift words"
    yield "    ((CURRENT--))"
    yield "    case $words[1] in"
    for command in commands:
        words = [*map(zsh_option, command.options), *map(zsh_input, range(1, 9), inputs(command))]
        yield f"    {command.name})"
        words = ["_arguments", *map(zsh_quoted, words)] if words else ["_message 'no more words'"]
        yield "        " + " \\\n            ".join(words)
        yield "        ;;"
    yield "    esac"
    yield "}"
    yield '_ztso "$@"'


# the same as bash does
TOOL_IN_ZSH = r"""_ztso_tool() {
    local help="$(${(Q)words[1]} --help 2> /dev/null)" last=$words[CURRENT-1]
    local shape="[[ ]$last ([a-z0-9]+([|][a-z0-9]+)+)"
    local -a options
    # else a command that is known by its path is completed by files as well
    _compskip=all
    if [[ $last == --* && $help =~ $shape ]]; then
        options=(${(s:|:)match[1]})
    elif [[ $words[CURRENT] == -* ]]; then
        options=(${(fu)"$(grep -oE -- '--[a-z][a-z-]*' <<< $help)"})
    else
        _files
        return
    fi
    compadd -a options
}"""


def zsh_option(option):
    text = option.text.replace("[", "\\[").replace("]", "\\]")
    values = "_files" if option.values == FILE else f"({' '.join(option.listed)})"
    return f"{option.name}[{text}]" + (f":{option.value}:{values}" if option.value else "")


def zsh_input(number, pair):
    name, kind = pair
    return f"{number}:{name}:" + ("_files" if kind == FILES else f"({' '.join(kind)})")


def zsh_quoted(text):
    return "'" + text.replace("'", "'\\''") + "'"


# ---- fish

def fish(commands, options):
    yield "# Completes the words of ztso in fish. Made by scripts/make-commands."
    yield "complete -c ztso -f"
    for command in commands:
        yield f"complete -c ztso -n __fish_use_subcommand -a {command.name} -d {fish_quoted(in_short(command))}"
    listed = {command.name: next((kind for _, kind in inputs(command) if kind and kind != FILES), [])
              for command in commands}
    plain = [command.name for command in commands if not listed[command.name] and FILES in dict(inputs(command)).values()]
    yield f"complete -c ztso -n '{fish_seen(plain)}' -F"
    for name, words in listed.items():
        if words:
            # first one of the words, then files
            yield f"complete -c ztso -n '{fish_seen([name])}; and not {fish_seen(words)}' -a '{' '.join(words)}'"
            yield f"complete -c ztso -n '{fish_seen([name])}; and {fish_seen(words)}' -F"
    for option in options:
        line = f"complete -c ztso -n '{fish_seen(option.commands)}' -l {option.name[2:]}"
        line += (" -r -F" if option.values == FILE else " -x") * bool(option.value)
        line += f" -a '{' '.join(option.listed)}'" * bool(option.listed)
        yield f"{line} -d {fish_quoted(option.text)}"
    yield from TOOL_IN_FISH.splitlines()
    yield f"for tool in {' '.join(sorted(tree.TOOLS))}"
    yield "    for command in '-c ztso-' '-p */tools/'"
    yield "        set -l command (string split ' ' -- $command$tool)"
    yield "        complete $command -n __ztso_tool_values -f -a '(__ztso_tool_values)'"
    yield "        complete $command -n 'not __ztso_tool_values' -a '(__ztso_tool_options)'"
    yield "    end"
    yield "end"


TOOL_IN_FISH = r"""
# Completes the words of a tool by its own help: the values of the option before, or options.
function __ztso_tool_values
    set -l words (commandline -opc)
    string match -q -- '--*' $words[-1]; or return 1
    set -l listed (string replace -rf -- ".*[\\[ ]$words[-1] ([a-z0-9]+(?:[|][a-z0-9]+)+).*" '$1' ($words[1] --help 2> /dev/null))
    set -q listed[1]; and string split -- '|' $listed[1]
end
function __ztso_tool_options
    string match -q -- '-*' (commandline -ct); or return
    set -l words (commandline -opc)
    string match -rag -- '(--[a-z][a-z-]*)' ($words[1] --help 2> /dev/null)
end"""


def fish_seen(words):
    return f"__fish_seen_subcommand_from {' '.join(words)}"


def fish_quoted(text):
    return "'" + text.replace("\\", "\\\\").replace("'", "\\'") + "'"
