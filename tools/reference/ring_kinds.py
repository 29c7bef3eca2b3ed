"""The rings of docs/rings.tsv, by their names."""

from pathlib import Path
from typing import NamedTuple

TABLE = Path(__file__).resolve().parent.parent.parent / "docs/rings.tsv"


class Ring(NamedTuple):
    name: str
    least: int
    crate: str
    heading: str
    receiver: str
    room_at: int
    room_in: str

    @staticmethod
    def of(line):
        name, least, crate, heading, receiver, room_at, room_in = line.split("\t")
        return Ring(name, int(least), crate, heading, receiver, int(room_at, 16), room_in)


RINGS = {ring.name: ring for ring in map(Ring.of, (line for line in TABLE.read_text().splitlines() if line[0] != "#"))}
