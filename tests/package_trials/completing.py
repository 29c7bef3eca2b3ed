"""The completions in the shells themselves: what comes after the words of a line."""

import re
from functools import partial

import tree

from ring_kinds import RINGS

from . import Typed, call, workplace

BUFFERS = ["1", "16", "2", "4"]
# the words of a line so far, and what can come next; `files` stands for the files of the folder
LINES = [
    ("ztso re", ["replay"]),
    ("ztso run --", ["--buffer"]),
    ("ztso run --buffer ", BUFFERS),
    ("ztso chart --s", ["--svg"]),
    ("ztso try one.litmus --sk", ["--skip"]),
    ("ztso channel ", sorted([*RINGS, "own"])),
    ("ztso channel lamport 3 ", "files"),
    ("ztso channel own 3 two --sender ", "files"),
    ("ztso callers ", "files"),
    ("ztso callers one.litmus --sl", ["--slots"]),
    ("ztso callers one.litmus --kind ", ["cached", "fastforward", "lamport"]),
    ("ztso callers one.litmus --sender ", []),
    ("ztso ring ", "files"),
    ("ztso run ", "files"),
    ("ztso run one.litmus two", ["two words.schedule"]),
    ("ztso asm ", []),
]
FILES = ["one.litmus", "two words.schedule"]
# the same of tools, which are asked for their help
OF_TOOLS = [
    ("compare-mappings --kn", ["--known"]), ("from-c one.c --fences ", ["all", "full", "none"]), ("core-log-to-record --order pl", []),
    ("core-log-to-record --log ", ["rvfi", "spike"]), ("core-log-to-record one.litmus --f", ["--first"]), ("queue ", "files"),
    ("from-object --compiler ", "files"), ("queue --requ", ["--require-fences"]), ("queue one.litmus --writ", ["--written"]),
]


def part(count, program):
    with workplace(program) as (folder, _):
        inside = folder / "files"
        inside.mkdir()
        for name in FILES:
            (inside / name).write_text("")
        for shell, ask in (("bash", in_bash), ("fish", in_fish), ("zsh", in_zsh)):
            if count.there(shell, f"completion for {shell}"):
                for line, wanted in LINES:
                    came = ask(line, inside, folder)
                    wanted = FILES if wanted == "files" else wanted
                    count.told(f"{shell}: {line!r}", came == wanted, f"{came}, wanted {wanted}")
        for shell, ask in (("bash", partial(in_bash, script=OF_TOOL)), ("fish", in_fish), ("zsh", in_zsh)):
            if count.there(shell, f"completion of tools for {shell}"):
                for line, wanted in OF_TOOLS:
                    came = ask(f"{tree.TOP}/tools/{line}", inside, folder)
                    count.told(f"{shell}: tools/{line!r}", came == (FILES if wanted == "files" else wanted), f"{came}, wanted {wanted}")


# ---- bash and fish say what they would complete

BASH = """
source "$1"; shift
compopt() { [ "$*" != '-o default' ] || files=yes; }
COMP_WORDS=("$@") COMP_CWORD=$(($# - 1)) files=
_ztso
if [ -n "$files" ]; then compgen -f -- "${!#}"; else printf '%s\\n' "${COMPREPLY[@]}"; fi
"""


# bash gives the function the command, the word and the one before
OF_TOOL = BASH.replace("\n_ztso\n", '\n_ztso_tool "$1" "${!#}" "${@: -2:1}"\n')


def in_bash(line, inside, _, script=BASH):
    completion = tree.TOP / "scripts/completion.bash"
    _, said, faults = call("bash", "-c", script, "bash", completion, *line.split(" "), folder=inside)
    return sorted(filter(None, (said + faults).split("\n")))


def in_fish(line, inside, folder):
    _, said, faults = call("fish", "--no-config", "-c", 'source $argv[1]; complete -C "$argv[2]"',
                           tree.TOP / "scripts/completion.fish", line, folder=inside, variables={"HOME": str(folder)})
    return sorted({text.split("\t")[0].replace("\\ ", " ") for text in (said + faults).split("\n") if text})


# ---- zsh has to be typed at

ZSH = """PS1='' PS2=''; fpath=({fpath} $fpath); autoload -Uz compinit; compinit -u -d {dump}; setopt no_beep
probe() {{ zle complete-word; print -r -- en''ded }}; zle -N probe; bindkey '\\t' probe
compadd() {{ local -a asked; [[ ${{@[(I)-[OAD]]}} -gt 0 ]] && {{ builtin compadd "$@"; return }}
builtin compadd -O asked "$@"; print -rl -- "came:"${{^asked}}; builtin compadd "$@" }}; print rea''dy
"""


def in_zsh(line, inside, folder):
    """The words that zsh would add: each goes through `compadd`, which writes them down."""
    fpath = folder / "fpath"
    fpath.mkdir(exist_ok=True)
    (fpath / "_ztso").write_bytes((tree.TOP / "scripts/completion.zsh").read_bytes())
    typed = Typed(["zsh", "-f", "-i"], inside, {"TERM": "dumb", "HOME": str(folder), "COLUMNS": "200"})
    try:
        typed.type(ZSH.format(fpath=fpath, dump=folder / "dump"))
        typed.until(b"ready\r\n")
        typed.content = b""
        typed.type(f"{line}\t")
        said = typed.until(b"ended\r\n").decode(errors="replace")
    finally:
        typed.end()
    return sorted({word.replace("\\", "") for word in re.findall(r"came:([^\r\n]+)", said)})
