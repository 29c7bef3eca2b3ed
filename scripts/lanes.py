"""Copies of the sources, in which crates are proved beside others.

rt locks all the crates that a crate uses, so each check that runs beside others has a copy of the sources of its own, in
the folder .git (or a temporary one). Of what was proved it has links, which take no room.
"""

import os
import shutil
import signal
import subprocess
import tempfile
from contextlib import contextmanager, suppress
from pathlib import Path

from crates import SOURCES, TOP

KEPT = ("incremental", "rlib")
# small files that say when and of what; rt replaces all others and changes none, so links serve for them
OWN = ("stamp", "judged", "rattle-last-used")


def linked(one, other):
    """Copies a folder of what was proved, by links where they can be made."""

    def copy(file, to):
        if Path(file).name not in OWN:
            try:
                return os.link(file, to)
            except OSError:
                pass  # another file system
        return shutil.copy2(file, to)

    shutil.rmtree(other, ignore_errors=True)
    shutil.copytree(one, other, copy_function=copy)


@contextmanager
def place(prefix):
    """A folder for lanes, which is removed in the end, and so is what runs that were killed left."""
    git = TOP / ".git"
    at = git if git.is_dir() else Path(tempfile.gettempdir())
    for folder in at.glob(f"{prefix}*"):
        number = folder.name.removeprefix(prefix).partition("-")[0]
        if not Path("/proc", number).exists():
            shutil.rmtree(folder, ignore_errors=True)
    made = Path(tempfile.mkdtemp(prefix=f"{prefix}{os.getpid()}-", dir=at))
    try:
        yield made
    finally:
        shutil.rmtree(made, ignore_errors=True)


def on_signals(end):
    """Calls `end` with the signal's number where this process is to end."""
    for number in (signal.SIGTERM, signal.SIGINT):
        signal.signal(number, lambda got, _: end(got))


def end_by(number):
    """Ends this process as the signal would have ended it, so that a script which called it ends too."""
    signal.signal(number, signal.SIG_DFL)
    os.kill(os.getpid(), number)


class Lane:
    """A copy of the sources, in which one crate at a time is proved."""

    def __init__(self, at, number):
        self.running, self.is_stopped = None, False
        self.crates = at / str(number) / "crates"
        for crate in (TOP / "crates").iterdir():
            for part in SOURCES:
                if (crate / part).is_dir():
                    shutil.copytree(crate / part, self.crates / crate.name / part)
        for name in ("crates.txt", "HANDLES"):
            shutil.copyfile(TOP / name, at / str(number) / name)

    def take(self, name, part, crates):
        """Has what another copy of the sources, or the checkout, made of a crate."""
        if (crates / name / "out" / part).is_dir():
            linked(crates / name / "out" / part, self.crates / name / "out" / part)

    def rt(self, name, *words):
        """Runs a command of rt in a crate; returns the exit status, and what it printed."""
        output, status, _ = self.timed(name, *words)
        return status, output

    def timed(self, name, *words):
        """Runs a command of rt in a crate; returns what it printed, the exit status, and the processor seconds that it used."""
        if self.is_stopped:
            return "", 1, 0.0
        with tempfile.TemporaryFile("w+", errors="replace") as output:
            self.running = subprocess.Popen(["rt", *words], cwd=self.crates / name, stdin=subprocess.DEVNULL, stdout=output, stderr=subprocess.STDOUT)
            # its own processes and no other lane's, which a sum over all children would count
            _, status, used = os.wait4(self.running.pid, 0)
            self.running.returncode = os.waitstatus_to_exitcode(status)
            output.seek(0)
            return output.read(), self.running.returncode, used.ru_utime + used.ru_stime

    def stop(self):
        """Ends what still runs; rt ends what it has started."""
        self.is_stopped = True
        if self.running and self.running.returncode is None:
            with suppress(ProcessLookupError):
                os.kill(self.running.pid, signal.SIGTERM)
