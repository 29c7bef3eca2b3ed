"""Random clicks: what the page shows, and what it lets one do, is what the machine of tools/reference says."""

import json
import random
import sys

from page_parts import TOOLS

sys.path.insert(0, str(TOOLS / "reference"))

import litmus  # noqa: E402
from machine import Machine, verdict, word_at  # noqa: E402

TESTS = ("spinlock", "iriw", "sb+bytes-early", "mp+amos", "peterson", "dekker+fences", "count+amos",
         "mp+bytes-of-a-word")
CLICKS = 14
IDLE = ("waited", "nothing", "over", "nohart")
SHOWN = """(() => { const of = (where, selector) => [...where.querySelectorAll(selector)]
        .map(one => (one.querySelector(".what") ?? one).textContent);
    const harts = [...document.querySelectorAll(".hart")];
    return { registers: harts.map(hart => of(hart, ".registers .cell")),
        pending: harts.map(hart => of(hart, ".queue li:not(.free)")), memory: of(document, "#memory .cell"),
        word: of(document, "#verdict .word"),
        can: [...document.querySelectorAll("#harts .event:not([aria-disabled=true])")].map(one => one.dataset.key) }; })()"""


def part(count, page):
    page.open()
    for seed, name in enumerate(TESTS):
        wrong = walk(page, name, seed)
        count.told(f"random clicks in {name}", not wrong, wrong)


class Walk:
    """A test in both machines: the page's and the reference's."""

    def __init__(self, page):
        self.test = litmus.read(page.run("document.getElementById('text').value"))
        self.machine = Machine(self.test, 4)
        self.state = self.machine.opening

    def can(self):
        """The events that do something."""
        return [f"{way}{hart}" for hart in range(len(self.test.codes)) for way in "al"
                if self.machine.step(self.state, (way, hart))[0].split(" ")[0] not in IDLE]

    def step(self, key):
        self.state = self.machine.step(self.state, (key[0], int(key[1:])))[2]

    def name_of(self, address, width):
        name = next(name for name, at in self.test.locations.items() if at == address - address % 4)
        return name if width == 4 else f"{name}+{address % 4}"

    def shown(self):
        """What is to be shown, registers aside: the page leaves some out."""
        return {"memory": [f"{name} {word_at(self.state[1], address)}"
                           for name, address in sorted(self.test.locations.items(), key=lambda one: one[1])],
                "pending": [[f"{self.name_of(address, width)} := {value}" for address, width, value in hart[3]]
                            for hart in self.state[0]],
                "word": [verdict(self.test, self.state)]}

    def registers(self, shown):
        """The registers that are shown with another value than they have."""
        for hart, cells in enumerate(shown):
            for cell in cells:
                number, _, value = cell.partition(" = ")
                value = str(self.test.locations[value[1:]]) if value.startswith("&") else value
                if str(self.state[0][hart][1][int(number[1:])]) != value:
                    yield f"P{hart} {cell}"


def walk(page, name, seed):
    """What differs, after some click."""
    page.choose(name)
    both, draw = Walk(page), random.Random(seed)
    for _ in range(CLICKS):
        shown, can = page.run(SHOWN), both.can()
        wrong = list(both.registers(shown["registers"]))
        if sorted(shown["can"]) != sorted(can) or wrong or any(shown[key] != value for key, value in both.shown().items()):
            return json.dumps([page.strip(), shown, can, wrong, both.shown()])
        if not can:
            break
        key = draw.choice(sorted(can))
        page.event(key)
        both.step(key)
    return ""
