"""Library calls whose allocations are refused: the tests of the crate tests_memory, by the binary that `rt test` leaves."""

import os
import subprocess
from pathlib import Path

from kit import running

from . import ROOT
from .memory import MOST
from .runs import SECONDS

CRATE = ROOT / "crates/tests_memory"
BINARY = CRATE / "out/tests_memory_tests"


def is_older():
    """Whether the binary of the tests isn't there, or a source of the crates is newer."""
    if not BINARY.exists():
        return True
    made = BINARY.stat().st_mtime
    sources = (path for kind in ("src/**/*.rt", "specs/**/*.antt") for path in ROOT.glob(f"crates/*/{kind}"))
    return any(path.stat().st_mtime > made for path in sources)


def names_of_tests():
    """The tests of the binary, which `rt test` makes anew where it is older than a source."""
    if is_older():
        BINARY.unlink(missing_ok=True)
        print("  calls: `rt test` proves and builds the tests of crates/tests_memory", flush=True)
        subprocess.run(["rt", "test"], cwd=CRATE, stdout=subprocess.DEVNULL, stderr=subprocess.DEVNULL)
    if not BINARY.exists():
        return []
    listed = subprocess.run([BINARY, "--list"], capture_output=True, text=True)
    return [line.removesuffix(": test") for line in listed.stdout.split("\n") if "::" in line]


def outcome(name, variables):
    """The status of one test, or that it has no end."""
    try:
        return subprocess.run([BINARY, name], stdout=subprocess.DEVNULL, stderr=subprocess.DEVNULL,
                              timeout=SECONDS, env={**os.environ, **variables}).returncode
    except subprocess.TimeoutExpired:
        return "no end"


def hold(runs, refuser, name):
    """Refuses each allocation of a test alone: the call that met it is made again and gives its own answer."""
    seen = Path(runs.folder, "seen")
    for number in range(1, MOST):
        status = outcome(name, {"LD_PRELOAD": str(refuser), "REFUSED_ALLOCATION": str(number),
                                "REFUSED_LATER": "0", "REFUSAL_SEEN": str(seen)})
        if not seen.exists():
            return
        seen.unlink()
        runs.hold("passed", status == 0, status, [name], note=f"allocation {number} refused")
    runs.hold("passed", False, f"{MOST} allocations", [name])


def part(runs):
    refuser = running.refuser_in(runs.folder)
    names = names_of_tests() if refuser else []
    if not names:
        missing = "`rt test` in crates/tests_memory made no tests" if refuser else "cc compiles nothing here"
        runs.hold("passed", False, missing, [])
        return
    runs.side_by_side(hold, ((refuser, name) for name in names))
    runs.counts(f"calls, {len(names)} tests, each allocation refused alone", ["passed"])
