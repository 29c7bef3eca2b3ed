"""What the checks of crates cost, as scripts/costs.tsv has it: processor seconds of one machine."""

from statistics import median

from crates import TOP

FILE = TOP / "scripts/costs.tsv"
KINDS = ("proof", "tests", "mutants")
# by how much a crate's proof may become slower, and how many seconds it must be at least
SLOWER, SECONDS = 1.2, 10
# from this many crates on their middle ratio is that of two machines, and not of what became slower
MACHINES = 10


def scheduled(jobs, lanes):
    """Seconds by the clock for jobs, each with its seconds, those that must end before it begins, and how much waits for it: of those that can begin
    that goes first for which most waits."""
    ends, free, left = {}, [0.0] * lanes, dict(jobs)
    while left:
        job = max((job for job, (_, below, _) in left.items() if all(other in ends for other in below)), key=lambda job: left[job][2])
        seconds, below, _ = left.pop(job)
        lane = min(range(lanes), key=free.__getitem__)
        free[lane] = ends[job] = max([free[lane], *(ends[other] for other in below)]) + seconds
    return max(free)


class Costs:
    """Processor seconds by crate and kind."""

    def __init__(self, crates, seconds):
        self.crates, self.seconds = crates, seconds

    @classmethod
    def read(cls, crates):
        rows = [line.split("\t") for line in FILE.read_text().splitlines()[1:]] if FILE.is_file() else []
        return cls(crates, {name: dict(zip(KINDS, map(int, values))) for name, *values in rows})

    def write(self):
        rows = [[name, *(str(self.seconds[name].get(kind, 0)) for kind in KINDS)] for name in sorted(self.seconds)]
        FILE.write_text("".join("\t".join(row) + "\n" for row in [["crate", *KINDS], *rows]))

    def renewed(self, other):
        """These costs with those of `other` in their place, kind by kind: what `other` did not measure stays."""
        return Costs(self.crates, {
            name: {kind: other.seconds.get(name, {}).get(kind) or self.seconds.get(name, {}).get(kind, 0) for kind in KINDS}
            for name in {**self.seconds, **other.seconds}})

    def proof(self, name):
        """What a crate's proof costs; for one that was never measured, a middle one."""
        known = [row["proof"] for row in self.seconds.values() if row.get("proof")]
        return self.seconds.get(name, {}).get("proof") or (median(known) if known else 100)

    def chain(self, name, among):
        """The costs of a crate and of the longest chain of crates above it."""
        above = [other for other in among if name in self.crates.uses[other]]
        return self.proof(name) + max((self.chain(other, among) for other in above), default=0)

    def length(self, names, lanes):
        """How long the proofs of these crates take side by side, on as many processors as there are lanes."""
        return scheduled({name: (self.proof(name), [low for low in self.crates.uses[name] if low in names], self.chain(name, names)) for name in names}, lanes)

    def both(self, other):
        """The crates whose proofs both have measured."""
        return [name for name, row in self.seconds.items() if row.get("proof") and other.seconds.get(name, {}).get("proof")]

    def ratio(self, other):
        """How many of these seconds are one of `other`: 1 where too few crates tell."""
        ratios = [self.seconds[name]["proof"] / other.seconds[name]["proof"] for name in self.both(other)]
        return median(ratios) if len(ratios) >= MACHINES else 1

    def slower(self, other):
        """The crates whose proofs became slower than in `other`, with both numbers, after the machines' ratio."""
        rows = [(name, other.seconds[name]["proof"] * self.ratio(other), self.seconds[name]["proof"]) for name in self.both(other)]
        return [(name, round(was), now) for name, was, now in rows if now > SLOWER * was and now > was + SECONDS]
