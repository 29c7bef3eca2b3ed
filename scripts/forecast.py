"""What the gate would take on so many cores, by the tables of what its parts cost."""

import sys

from costs import KINDS, Costs, scheduled
from crates import TOP, Crates
from mutant_parts import sums, table
from mutant_parts.edits import edits_of

sys.path.append(str(TOP / "cases"))

from kit import checking  # noqa: E402

# minutes by the clock: CI ends a run after 180, and its machine may be a fifth slower than that of the tables
MOST = 150


def proving(costs, cores):
    """Seconds by the clock for all proofs, and the tests and edits of must-fail of each crate, which follow its proof."""
    names = costs.crates.names
    jobs = {(name, "proof"): (costs.proof(name), [(low, "proof") for low in costs.crates.uses[name]], costs.chain(name, names)) for name in names}
    jobs |= {(name, kind): (costs.seconds.get(name, {}).get(kind, 0), [(name, "proof")], 0) for name in names for kind in KINDS[1:]}
    return scheduled(jobs, cores)


def stale_mutants(crates, costs):
    """Of each crate with mutants that no row has of the sources as they are, about how many processor seconds these take."""
    rows, logic, found = table.read(), sums.kit(), {}
    for name in crates.names:
        edits = edits_of(TOP / "crates" / name)
        if open_ones := edits and table.left(edits, sums.read_by(name, crates, logic), rows.get(name)):
            row = rows.get(name)
            found[name] = row.seconds * len(open_ones) / len(row.refused) if row and row.refused else costs.proof(name)
    return found


def forecast(cores):
    """A line for each part, and the minutes that all take together."""
    crates = Crates.read()
    costs = Costs.read(crates)
    stale = stale_mutants(crates, costs)
    parts = [
        ("proofs, tests and edits of must-fail", proving(costs, cores)),
        # a crate's are tried one after the other
        (f"mutants of {len(stale)} stale rows ({', '.join(stale) or 'none'})", max([sum(stale.values()) / cores, *stale.values()])),
        # on the proved program, and on the one that rustc builds
        ("./check --all, twice", 2 * sum(row.get("all", 0) for row in checking.rows().values()) / cores)]
    return [f"{name}: {seconds / 60:.0f} minutes" for name, seconds in parts], sum(seconds for _, seconds in parts) / 60
