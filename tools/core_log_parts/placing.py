"""Places loads in the order of a log that has only the cycle in which they retired.

Such a load may have read its value at any point since its hart's act before, and it changes nothing for other
harts. So it is put at the earliest point of that window at which its value can be read, or where it retired if
there is none. A place needn't be trusted: a wrong one can only be refused."""

from collections import deque

WIDTHS = {"load": 4, "load2": 2, "load1": 1, "store": 4, "store2": 2, "store1": 1, "amo": 4}


class Memory:
    """The bytes of memory and the pending stores of each hart, oldest first."""

    def __init__(self, words):
        self.bytes = {address + i: value >> 8 * i & 0xFF for address, value in words.items() for i in range(4)}
        self.pending = {}

    def write(self, address, width, value):
        self.bytes.update((address + i, value >> 8 * i & 0xFF) for i in range(width))

    def byte(self, hart, address):
        for start, width, value in reversed(self.pending.get(hart, ())):
            if start <= address < start + width:
                return value >> 8 * (address - start) & 0xFF
        return self.bytes.get(address, 0)

    def can_read(self, load):
        address, value = load.values
        return all(self.byte(load.hart, address + i) == value >> 8 * i & 0xFF for i in range(WIDTHS[load.name]))

    def change(self, event):
        """What an event changes for loads."""
        pending = self.pending.setdefault(event.hart, deque())
        if event.name == "land" and pending:
            self.write(*pending.popleft())
        elif event.name.startswith("store"):
            address, value = event.values
            pending.append((address, WIDTHS[event.name], value))
        elif event.name == "amo":
            address, _, new = event.values
            self.write(address, WIDTHS["amo"], new)


def placed(events, words):
    """The events in another order, where memory opens with these words."""
    memory, order, acts = Memory(words), [], {}
    for event in events:
        if event.letter == "a":
            acts.setdefault(event.hart, deque()).append(event)

    def place_loads():
        for left in acts.values():
            while left and left[0].name.startswith("load") and memory.can_read(left[0]):
                order.append(left.popleft())

    place_loads()
    for event in events:
        left = acts.get(event.hart)
        if event.letter == "a":
            if not left or left[0] is not event:
                continue  # a load that was placed already
            left.popleft()
        order.append(event)
        memory.change(event)
        place_loads()
    return order
