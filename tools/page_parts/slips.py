"""What looks like a slip of the pen in a test that the program takes, in words. static/slips.js says the same where there
is no server, and tests/page-server holds both together."""

import re

# what an instruction sets, as `show` prints it: of stores, branches and fences nothing
SETS = re.compile(r"(?!s[bhw] |b|fence)\S+ x([0-9]+),")
# the offset and the base of the address that it touches
TOUCHES = re.compile(r"(?!jalr )\S+ .*?(-?[0-9]*)\(x([0-9]+)\)")


def slips(harts, lefts, locations):
    """A line for each base register that nothing sets, one for all locations that one of several harts names, and one for
    each thing that the condition asks of and no code changes or loads."""
    return [*unset_bases(harts, locations), *named_once(harts), *untouched(harts, lefts)]


def touches(hart):
    """Each row that touches memory, with the base and the offset."""
    for row in hart["rows"]:
        shape = TOUCHES.match(row["text"])
        if shape:
            yield row, int(shape[2]), int(shape[1] or 0)


def set_by_code(hart):
    return {int(shape[1]) for row in hart["rows"] if (shape := SETS.match(row["text"]))}


def unset_bases(harts, locations):
    names = {address: name for name, address in locations.items()}
    for number, hart in enumerate(harts):
        # x0 is 0 on purpose
        known = {0, *hart["opens"], *set_by_code(hart)}
        for row, base, offset in touches(hart):
            if base not in known:
                known.add(base)
                address = offset % (1 << 32)
                place = f"`{names[address]}`" if address in names else f"address {address}"
                yield f"Nothing sets P{number}'s `x{base}`: it is 0, and `{row['text']}` (line {row['line']}) touches {place}."


def named_once(harts):
    """Locations that only one of several harts names."""
    namers = {}
    for number, hart in enumerate(harts):
        for name in hart["pointers"].values():
            namers.setdefault(name, set()).add(number)
    lone = [f"`{name}` (P{min(of)})" for name, of in namers.items() if len(of) == 1]
    if lone and len(harts) > 1:
        yield f"Only one hart names {' and '.join(lone)}. To share a location, both harts name it."


def untouched(harts, lefts):
    """Registers that the condition asks of and their hart never sets, and locations that no hart touches."""
    touched = words_touched(harts)
    for left in lefts:
        kind, *place = left["place"]
        if kind == "register" and place[1] not in set_by_code(harts[place[0]]):
            yield f"The condition asks of `{left['name']}`, which no instruction of P{place[0]} sets."
        elif kind == "word" and touched is not None and place[0] not in touched:
            yield f"The condition asks of `{left['name']}`, which no hart touches."


def words_touched(harts):
    """The addresses of the words that harts touch, or None where code computes an address."""
    touched = set()
    for hart in harts:
        computed = set_by_code(hart)
        for _, base, offset in touches(hart):
            if base in computed:
                return None
            touched.add((hart["opens"].get(base, 0) + offset) % (1 << 32) // 4 * 4)
    return touched
