"""The functions of an image that a hart reaches, each with its instructions."""

from bisect import bisect_right

from bring_parts import Refused
from bring_parts.instructions import TEXT


def of_hart(image, hart, harts):
    """The functions that a hart's function reaches by jumps and calls, itself first. `harts` are the symbols of all harts'
    functions. Refuses code that uses what isn't defined, or that runs on past its end."""
    whole = Functions(image, hart, harts)
    found, todo = {}, [hart.at]
    for start in todo:
        name, code = whole.at(start)
        if name in found:
            continue
        image.check_defined(code)
        found[name] = code
        todo += [goal for each in code for goal in each.goals() if whole.has(goal)]
    return found


class Functions:
    """The code of an image by functions. One begins at a symbol with the type of functions, at a hart, and where a call
    leads; another label is a place inside."""

    def __init__(self, image, hart, harts):
        names = {hart.at: hart.name, **{each.at: each.name for each in harts if each.at != hart.at}}
        self.sizes = {each.at: each.size for each in image.symbols if each.kind == "FUNC" and each.is_defined() and each.size}
        calls = {goal for each in image.code if each.is_call() for goal in each.goals()}
        for each in image.symbols:
            is_label = each.at in calls and not each.name.startswith((".L", "$"))
            if each.is_defined() and each.at >= TEXT and (each.kind == "FUNC" or is_label):
                names.setdefault(each.at, each.name)
        there = {each.at for each in image.code}
        self.names = {at: names.get(at, f"function at {at - TEXT:#x}") for at in sorted({*names, *calls} & there)}
        self.starts, self.harts = list(self.names), {each.at for each in harts}
        self.parts = {at: [] for at in self.starts}
        for each in image.code:
            if self.starts and each.at >= self.starts[0]:
                self.parts[self.start_of(each.at)].append(each)

    def start_of(self, address):
        """Where the function begins in which an address lies."""
        return self.starts[bisect_right(self.starts, address) - 1]

    def has(self, address):
        return bool(self.starts) and address >= self.starts[0] and address <= self.parts[self.starts[-1]][-1].at

    def at(self, address):
        """The name and code of the function in which an address lies. A place of assembly that its function doesn't reach
        counts as one of its own."""
        start = self.start_of(address)
        code = self.whole(start, self.parts[start])
        if start in self.sizes or any(each.at == address for each in code):
            return self.names[start], code
        name = self.names[address] = f"place at {address - TEXT:#x}"
        return name, self.whole(address, [each for each in self.parts[start] if each.at >= address])

    def whole(self, start, part):
        """The code of the function that begins there, with those that it runs on into."""
        code, following = self.own(start, part), start
        while self.runs_on(start, code):
            following = next((at for at in self.starts if at > following), None)
            if following is None or following in self.harts:
                into = f"into {self.names[following]}" if following else "past its end"
                raise Refused(f"{code[-1].where()}: {self.names[start]} runs on {into}: end it with `ret`")
            code = [*code, *self.own(following, self.parts[following])]
            code = code if start in self.sizes else reached(code)
        return code

    def own(self, start, code):
        """The code of the function that begins there: as many bytes as its symbol says, and else what can be reached."""
        return [each for each in code if each.at < start + self.sizes[start]] if start in self.sizes else reached(code)

    def runs_on(self, start, code):
        """Whether control goes on after the last instruction. After a call at the end of a compiler's function it doesn't."""
        last = code[-1]
        return not last.is_end() and not (last.is_call() and start in self.sizes)


def reached(code):
    """The instructions that can be reached from the first one."""
    places, done, todo = {each.at: at for at, each in enumerate(code)}, set(), [0]
    while todo:
        at = todo.pop()
        if at in done or at >= len(code):
            continue
        done.add(at)
        if not code[at].is_call():
            todo += [places[goal] for goal in code[at].goals() if goal in places]
        if not code[at].is_end():
            todo.append(at + 1)
    return [code[at] for at in sorted(done)]
