"""What the tools here share: the part that a command line names first, or the parts that it names."""

import sys
import time
from pathlib import Path

sys.path.insert(0, str(Path(__file__).resolve().parent.parent / "tools"))

from bring_parts import Refused, program_of  # noqa: E402


def run(text, parts):
    """The status of the part that the command line names first, a module whose text at the top is its help; it gets the
    words after it."""
    name, words = (sys.argv[1:2] or [None])[0], sys.argv[2:]
    asks_for_help = bool({"-h", "--help"} & set(sys.argv[1:]))
    if name in parts and not asks_for_help:
        return parts[name].main(words)
    print((parts[name].__doc__ if name in parts else text).strip(), file=sys.stdout if asks_for_help else sys.stderr)
    return 0 if asks_for_help else 64


def asked_of(words, parts):
    """What the words of a command line ask, with the program and the names of parts; wrong ones end the tool."""
    words.add_argument("--program")
    words.add_argument("parts", nargs="*", metavar="PART")
    asked = words.parse_args()
    if unknown := [name for name in asked.parts if name not in parts]:
        words.error(f"there is no part {' '.join(unknown)}")
    try:
        asked.program = program_of(asked.program)
    except Refused as refused:
        words.error(str(refused))
    return asked


def run_all(count, parts, names, *given):
    """Runs the parts of these names, or all, prints how long each took and how many passed, and returns the status."""
    for name in names or parts:
        begun = time.monotonic()
        parts[name](count, *given)
        print(f"  {name} took {time.monotonic() - begun:.0f} s", flush=True)
    print(count.last_line())
    return 1 if count.failed else 0
