"""The commands and options of docs/commands.tsv, in its order."""

import re
from pathlib import Path
from typing import List, NamedTuple, Optional

from ring_kinds import RINGS

TABLE = Path(__file__).resolve().parent.parent.parent / "docs/commands.tsv"
# what the table says of an option whose value names a file
FILE = "a file"


class Command(NamedTuple):
    words: str
    reads: str
    prints: str
    page: str

    @property
    def name(self):
        return self.words.split()[0]

    @property
    def places(self):
        """Its words in their places, as `FILE`."""
        return self.words.split(" --")[0].split()[1:]

    @property
    def options(self) -> List["Option"]:
        return [option for option in OPTIONS if self.name in option.commands]

    def needs(self, option):
        """Whether it has to be given."""
        return option.name in self.words.split()

    @property
    def line(self):
        """Its words, and in brackets what may be left out."""
        return " ".join([self.words, *(f"[{option.words}]" for option in self.options if not self.needs(option))])


class Option(NamedTuple):
    words: str
    commands: List[str]
    values: str
    default: Optional[str]
    does: str

    @staticmethod
    def of(words, commands, values, default, does):
        return Option(words, commands.split(), values, default or None, does)

    @property
    def name(self):
        return self.words.split()[0]

    @property
    def value(self):
        """What its value is called, and nothing for a flag."""
        return self.words.partition(" ")[2]

    @property
    def limits(self):
        """The least and the greatest number, where it takes a number."""
        found = re.fullmatch(r"(\d+) to (\d+)", self.values)
        return found and (int(found[1]), int(found[2]))

    @property
    def listed(self):
        """The words that it takes, where the table lists them."""
        return re.split(", | or ", self.values) if " or " in self.values else []

    @property
    def text(self):
        """What it does, with its values and what it is if it is left out."""
        values = f": {self.values}" if self.listed else f", {self.values}" if self.limits else ""
        return self.does + values + (f"; {self.default} if it is left out" if self.default else "")


def rows(kind):
    lines = TABLE.read_text().replace("{rings}", ", ".join(RINGS)).splitlines()
    return [line.split("\t")[1:] for line in lines if line.split("\t")[0] == kind]


def file_of(words):
    """The first of a command's words that is neither an option nor the value of one, or None."""
    name, *rest = words
    valued = {option.name for option in OPTIONS if option.value and name in option.commands}
    while rest and rest[0].startswith("--"):
        rest = rest[2 if rest[0] in valued else 1:]
    return rest[0] if rest else None


COMMANDS = [Command(*row) for row in rows("command")]
OPTIONS = [Option.of(*row) for row in rows("option")]
STATUSES = rows("status")
