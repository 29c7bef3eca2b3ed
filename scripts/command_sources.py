"""The table of commands of crates/command_line, in its specs and in its source, as `rt fmt` lays them out. Each function gets
the commands of docs/commands.tsv, and yields lines."""

from collections import Counter

MADE = "Made by scripts/make-commands from docs/commands.tsv: change that."
# how wide `rt fmt` lets a list or a tuple on one line be, and how wide lines of specs are here
INNER, WIDEST = 60, 150


def parameters(command):
    """Each parameter as its kind, its name, and its value where it is left out."""
    for place in command.places:
        yield "positional", place.lower()
    for option in command.options:
        name = option.name[2:]
        if not option.value:
            yield "flag", name
        elif command.needs(option):
            yield "required", name
        elif option.default:
            yield "defaulted", name, option.default
        else:
            yield "optional", name


def shared(commands):
    """The parameters of several commands: each has a constant of its name, and no two have one name."""
    uses = Counter(parameter for command in commands for parameter in parameters(command))
    names = Counter(name for (_, name, *_), count in uses.items() if count > 1)
    return [parameter for parameter, count in uses.items() if count > 1 and names[parameter[1]] == 1]


def kinds(commands):
    return sorted({kind for command in commands for kind, *_ in parameters(command)})


# ---- the specs

def antt(commands):
    named = shared(commands)
    yield f"-- The table of commands. {MADE}"
    yield "use Rattle.std.specs.Prelude.{List, [], ◌∷◌, codes}"
    yield f"use Rattle.command_line.specs.Parameters.{{CommandRow, Parameter, row, {', '.join(kinds(commands))}}}"
    for parameter in named:
        yield from ("", f"abbrev {parameter[1]} : Parameter", f"{parameter[1]} = {antt_parameter(parameter)}")
    yield from ("", "-- each command with its words and options", "abbrev pub commands : List CommandRow", "commands =")
    for number, command in enumerate(commands):
        items = [item[1] if item in named else antt_parameter(item) for item in parameters(command)]
        yield from folded("∷ " * (number > 0) + f'row (codes "{command.name}") ', "(" + " ∷ ".join([*items, "[])"]) if items else "[]")
    yield "    ∷ []"


def antt_parameter(parameter):
    kind, *texts = parameter
    return " ".join([kind, *(f'(codes "{text}")' for text in texts)])


def folded(line, rest):
    for number, part in enumerate(rest.split(" ∷ ")):
        part = " ∷ " * (number > 0) + part
        if len(line) + len(part) > WIDEST:
            yield f"    {line}"
            line = part.lstrip()
        else:
            line += part
    yield f"    {line}"


# ---- the source

def rust(commands):
    named = shared(commands)
    yield f"//! The table of commands. {MADE}"
    yield ""
    yield f"use crate::table::Parameter::{{self, {', '.join(kind.capitalize() for kind in kinds(commands))}}};"
    yield "use crate::table::Row;"
    for parameter in named:
        yield from ("", f"const {parameter[1].upper()}: Parameter = {rust_parameter(parameter)};")
    yield from ("", "/// Each command with its words and options.", f"pub const COMMANDS: [Row; {len(commands)}] = [")
    for command in commands:
        yield from rust_row(command.name, [item[1].upper() if item in named else rust_parameter(item) for item in parameters(command)])
    yield "];"


def rust_parameter(parameter):
    kind, *texts = parameter
    quoted = ", ".join(f'"{text}"' for text in texts)
    return f"{kind.capitalize()}({quoted})"


def rust_row(name, items):
    inner = ", ".join(items)
    if len(f'"{name}", &[{inner}]') <= INNER:
        yield f'    ("{name}", &[{inner}]),'
        return
    yield from ("    (", f'        "{name}",')
    if len(inner) <= INNER:
        yield f"        &[{inner}],"
    else:
        yield from ("        &[", *(f"            {item}," for item in items), "        ],")
    yield "    ),"
