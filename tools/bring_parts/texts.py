"""Litmus texts that ztso takes, read by tools/reference, with the parts that a test hasn't."""

from dataclasses import dataclass

from bring_parts import Refused

import litmus
from faults import Fault


class Placed(litmus.Reader):
    """The reader, which keeps where the init part is open and where the condition begins."""

    def header(self):
        self.open = super().header()
        return self.open

    def condition(self, start):
        self.begin = start
        super().condition(start)


@dataclass
class Text:
    """A text: the test and its name, all up to the condition, and without comments the lines above the init part and
    the condition on one line."""
    text: str
    test: litmus.Test
    name: str
    front: str
    information: str
    condition: str


def read(text, path):
    """The parts of a text, or what its reader refuses, by the name of its file."""
    reader = Placed(text)
    try:
        test = reader.read()
    except Fault as fault:
        raise Refused(f"{path}: {said_of(fault)}") from None
    return Text(text, test, reader.text.split()[1], text[:reader.begin], reader.text[:reader.open],
                " ".join(reader.text[reader.begin:].split()))


def said_of(fault):
    """What a fault of the reader says, and where more of it stands."""
    line = fault.line.removeprefix("ztso: ")
    return f"{line} (tools/explain {line.split()[1]})"
