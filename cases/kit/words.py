"""The words of specs: one that another crate's specs or sources cite stands for one thing, so no second crate defines it.
The invariants of the rings use the same words for the same things, each of its own counters; and the crates that compute what
another one defines speak its language, and no other."""

import re
import sys
from collections import defaultdict

from .links import ROOT

sys.path.insert(0, str(ROOT / "tools/reference"))

from ring_kinds import RINGS  # noqa: E402

DEFINED = re.compile(r"^(?:(?:abbrev|unfoldable|opaque) )?pub (?:record |data )?(?!mod |use )(?P<name>[^\s:({◌]+)", re.M)  # operators aside
CITED = re.compile(r"^\s*(?:pub )?(?:ghost )?use Rattle\.(?P<crate>\w+)\.specs\.[\w.]+\.\{(?P<names>[^}]*)\}", re.M)


# which crates compute what a crate defines
COMPUTE = {"slot_queue": {"ownership_runs", "tokens"}, "slots_that_tell": {"ownership_runs"}, "ownership_runs": {"certifying"},
           "queue_certificates": {"known_values", "queue_checker", "certificate_reader", "certifying", "records_written", "hart_safety",
                                  "queue_progress"},
           "known_values": {"queue_checker", "certificate_reader", "certifying", "records_written", "hart_safety", "queue_progress"},
           "queue_checker": {"certifying", "records_written", "hart_safety", "queue_progress"}}


def definitions():
    """Of each public word of specs, the crates that define it."""
    crates = defaultdict(set)
    for path in ROOT.glob("crates/*/specs/**/*.antt"):
        for found in DEFINED.finditer(path.read_text()):
            crates[found["name"]].add(path.relative_to(ROOT).parts[1])
    return crates


def citations():
    """The words that other crates' specs and sources cite, each with the crate that defines it."""
    cited = set()
    for path in (*ROOT.glob("crates/*/specs/**/*.antt"), *ROOT.glob("crates/*/src/**/*.rt")):
        by = path.relative_to(ROOT).parts[1]
        for found in CITED.finditer(path.read_text()):
            if found["crate"] != by and by not in COMPUTE.get(found["crate"], ()):
                cited |= {(name.split()[0], found["crate"]) for name in found["names"].split(",")}
    return cited


def wrong():
    """A line for each word of a crate that others cite, and that stands for something else in a second crate."""
    rings, defined = {ring.crate for ring in RINGS.values()}, definitions()
    for name, crate in sorted(citations()):
        others = defined[name] - {crate} - (rings if crate in rings else set())
        if crate in defined[name] and others:
            yield f"{name} of crates/{crate}/specs, which other crates cite, is also a word of {', '.join(sorted(others))}"
