"""How many trials passed, and what is said of those that failed."""

import os
import subprocess
import sys
from pathlib import Path

from bring_parts import TOOLS

from sections import sections

# a tool that takes so long hangs; on a machine with nothing else to do none takes more than 3
SECONDS = 300


class Count:
    def __init__(self):
        self.passed = self.failed = 0

    def told(self, name, good, why=""):
        """Takes in a trial's end."""
        self.passed, self.failed = self.passed + bool(good), self.failed + (not good)
        if not good:
            print(f"failed: {name}: {why}", flush=True)

    def last_line(self):
        return f"{self.passed} passed, {self.failed} failed"


def run(tool, *words, text="", seconds=SECONDS, processor="unlimited", variables=()):
    """The status, standard output and standard error of a tool, which may take so many seconds of a processor."""
    stdin = text.encode() if isinstance(text, str) else text
    command = ["sh", "-c", f'ulimit -t {processor}; exec "$0" "$@"', sys.executable, str(TOOLS / tool), *map(str, words)]
    try:
        done = subprocess.run(command, input=stdin, capture_output=True, timeout=seconds,
                              env={**os.environ, **dict(variables)}, check=False)
    except subprocess.TimeoutExpired:
        return None, "", f"more than {seconds} seconds"
    return done.returncode, done.stdout.decode(errors="replace"), done.stderr.decode(errors="replace")


def write(folder, name, text):
    """A file of the folder with this text."""
    path = Path(folder, name)
    path.write_bytes(text if isinstance(text, bytes) else text.encode())
    return path


def write_all(folder, texts):
    """The files of the folder that have each text of a file of several, by their names and in their order."""
    return [write(folder, name, text) for name, text in sections(texts.read_text())]
