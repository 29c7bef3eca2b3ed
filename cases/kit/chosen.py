"""The program that a tool runs if none is named: the one that ./ztso runs, as scripts/program chooses and makes it."""

import subprocess
import sys
from pathlib import Path

from .links import ROOT


def program(named=None):
    """The path of the program that is named, or of that one; ends the tool if there is none and none can be made, which
    scripts/program has then said."""
    if named:
        return Path(named).resolve()
    made = subprocess.run([ROOT / "scripts/program", "--quiet"], stdin=subprocess.DEVNULL, stdout=subprocess.PIPE, text=True, check=False)
    if made.returncode:
        sys.exit(made.returncode)
    return Path(made.stdout.strip())
