"""What the scripts share that make pages: `write` writes those that differ, `check` names them."""

import sys
from pathlib import Path

ROOT = Path(__file__).resolve().parent.parent


def main(text, made, further=lambda: ()):
    """The status of a script with this help, which makes these pages, each a path and its text; further faults are printed
    by both words, and fail."""
    if sys.argv[1:] not in (["write"], ["check"]):
        asked = sys.argv[1:] in (["-h"], ["--help"])
        print(text.strip(), file=sys.stdout if asked else sys.stderr)
        return 0 if asked else 64
    is_check = sys.argv[1] == "check"
    wrong = [(path, page) for path, page in made() if not path.exists() or path.read_text() != page]
    for path, page in wrong:
        if is_check:
            print(f"{path.relative_to(ROOT)} isn't as `scripts/{Path(sys.argv[0]).name} write` makes it")
        else:
            path.write_text(page)
    faults = list(further())
    for line in faults:
        print(line)
    return 1 if faults or wrong and is_check else 0
