#!/usr/bin/env python3
"""usage: scripts/machine.py

Prints how many processes of rt may prove side by side here, by the processors and the free memory that this
process may use: those of the machine, or less in a container with limits.
"""

import os
import sys
from pathlib import Path

sys.path.append(str(Path(__file__).resolve().parent.parent / "tools/reference"))

from faults import ended  # noqa: E402

# what one check takes at most of those measured, with room for what grows, in bytes
MEMORY = 2_500_000_000
# the limits of a container
GROUP = Path("/sys/fs/cgroup")


def limits(name):
    """The numbers of a file of the control group; none where it has no limit, or there is no such group."""
    try:
        return [int(word) for word in (GROUP / name).read_text().split()]
    except (OSError, ValueError):
        return []


def number_after(word, file):
    """The number that follows a word at the beginning of a line."""
    return next(int(line.split()[1]) for line in Path(file).read_text().splitlines() if line.startswith(word))


def processors():
    """How many there are to use."""
    found = len(os.sched_getaffinity(0))
    if quota := limits("cpu.max"):
        found = min(found, quota[0] // quota[1])
    return max(1, found)


def room():
    """How many of rt's processes the free memory holds."""
    free = number_after("MemAvailable", "/proc/meminfo") * 1024
    if memory := limits("memory.max"):
        # what files take there gives way
        free = min(free, memory[0] - number_after("anon ", GROUP / "memory.stat"))
    return max(1, free // MEMORY)


def processes():
    """How many of rt's processes run side by side: one a processor, and no more than memory holds."""
    return min(processors(), room())


def main():
    if sys.argv[1:]:
        asked = sys.argv[1] in ("-h", "--help")
        print(__doc__.strip(), file=sys.stdout if asked else sys.stderr)
        return 0 if asked else 64
    print(processes())
    return 0


if __name__ == "__main__":
    sys.exit(ended(main))
