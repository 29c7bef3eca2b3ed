"""The text of a certificate: for each hart the states that were found, and how each instruction leads from them into them.

A certificate's variables begin at 0; a step adds one, which comes first. docs/queue-texts.md has the grammar.
"""

import certificates as reference

from . import handed
from .forms import variable_of
from .layouts import Layout
from .sent import marked


def written(form):
    """A form in the text, as `12+4*0+1*2`: a number, and of each variable, by its place, how often it is taken."""
    terms = [f"{m}*{at}" for at, m in enumerate(form.factors) if m]
    return "+".join([str(form.constant)] * bool(form.constant or not terms) + terms)


def place_written(place, width):
    """Where an own word lies, and its bytes, where these aren't all four."""
    return str(place) if width == 4 else f"{place}:{width}"


def value_written(value):
    if isinstance(value, reference.HasBits):
        return f"&{value.mask}:{value.bits}"
    if isinstance(value, reference.EndsAs):
        return f"^{value.bits}:{written(value.form)}"
    if isinstance(value, reference.Linear):
        return written(value.form)
    return f"{'@' if isinstance(value, reference.IndexFor) else '~'}{value.queue}:{written(value.form)}"


def layout_of(program, state):
    """A state's variables in the certificate: of each queue the own count, the turns and the position, and how much is owned, as far as these aren't
    known; then the others."""
    ranges = program.ranges(state)
    named = [(kind, which) for which, share in enumerate(state.shares) if share for kind in "nptA"]
    named += [(kind, which) for kind, each in (("z", state.others), ("w", state.handed)) for which in range(len(each))]
    limits = {variable: ranges.get(variable) for variable in named}
    return Layout(program.spreads, ranges, [(kind, which) for (kind, which), each in limits.items() if kind in "zw" or (
        each[0] < each[1] if each else kind == "n")])


class Writer:
    """Writes the part of a hart."""

    def __init__(self, program, search):
        self.program, self.search = program, search
        self.states = list(search.reached())
        self.numbers = {state: at for at, state in enumerate(self.states)}
        self.layouts = [layout_of(program, state) for state in self.states]
        self.marked = marked(program, search)

    def covering(self, state):
        return self.numbers[self.search.covering(state)]

    def lines(self):
        yield "hart"
        if self.program.reads:
            yield " ".join(["own", *(place_written(*self.program.kept[which]) for which in sorted(self.program.reads))])
        at = self.covering(self.program.start)
        yield " ".join(map(str, ("open", at, *(self.opening(variable, at) for variable in self.layouts[at].places))))
        for state, layout in zip(self.states, self.layouts):
            yield f"state {state.pc}"
            yield from self.known(state, layout)
            yield from self.marked.get(state, ())
            yield from self.tree(self.search.trees[state], layout)

    def known(self, state, layout):
        if layout.most:
            yield " ".join(["most", *("-" if most is None else str(most) for most in layout.most)])
        words = [state.words[which] for which in sorted(self.program.reads)]
        for name, values in (("reg", state.registers), ("word", words)):
            for which, value in enumerate(values):
                if value is not None and (which or name == "word"):
                    yield f"{name} {which} {value_written(layout.value(value))}"
        for which, share in enumerate(state.shares):
            if share:
                owned = reference.number(share.low) if self.program.queues[which].has_tags else layout.form(variable_of("A", which))
                yield f"share {which} {written(layout.form(variable_of('n', which)))} {written(owned)}"

    def opening(self, variable, at):
        kind, which = variable
        if kind == "n":
            return self.at_start(kind, which) // (self.program.queues[which].period() * self.program.queues[which].turns())
        first, multiples = self.put_for(variable, at, self.program.start)
        return first + sum(m * self.at_start(*each) for each, m in multiples) - self.layouts[at].begin(variable)

    def at_start(self, kind, which):
        """The number of a variable of the search with which a hart opens."""
        share = self.program.start.shares[which]
        return {"n": share.count, "p": share.first, "t": share.begin, "A": share.low}[kind]

    def put_for(self, variable, to, state):
        """The number and the multiples of variables of a state that are put for a variable of the one that covers it."""
        kind, which = variable
        return handed.put_for(which, self.states[to], state, self.program) if kind == "w" else (0, [(variable, 1)])

    def tree(self, tree, layout):
        if tree[0] == "split":
            for is_high in (False, True):
                half, limit = layout.half(tree[1], tree[2], is_high)
                if not is_high:
                    yield f"split {layout.places[tree[1]]} {limit}"
                yield from self.tree(tree[3 + is_high], half)
            return
        moved = [step for following in tree[2] for step, queue in zip(following.moved, self.program.queues) if step and not queue.has_tags]
        yield f"leaf {moved[0] if moved else 0}"
        for following in tree[2]:
            to = self.covering(following.state)
            yield " ".join(["to", str(to), *(written(self.put(variable, to, following, layout)) for variable in self.layouts[to].places)])

    def put(self, variable, to, following, layout):
        """A variable of the state that is reached, by those of the leaf and the one that comes with the step."""
        kind, which = variable
        if kind == "n":
            return reference.plus(reference.lifted(layout.of(variable)), reference.number(self.turned(which, following, layout)[1]))
        first, multiples = self.put_for(variable, to, following.state)
        found = reference.Form(first - self.layouts[to].begin(variable), ())
        for each, m in multiples:
            found = reference.plus(found, reference.times(m, self.after(*each, following, layout)))
        return found

    def turned(self, which, following, layout):
        """By how many turns of the slots, and of all the turns that an index counts, a step moves on."""
        queue = self.program.queues[which]
        turns = (layout.begin(("p", which)) + following.moved[which]) // queue.period()
        return turns, (layout.begin(("t", which)) + turns) // queue.turns()

    def after(self, kind, which, following, layout):
        """A variable of the search after a step, by those of the leaf and the one that comes with it."""
        if kind in "pt":
            queue = self.program.queues[which]
            turns, again = self.turned(which, following, layout)
            more = following.moved[which] - turns * queue.period() if kind == "p" else turns - again * queue.turns()
        elif kind == "A":
            if following.looked[which]:
                return reference.plus(reference.number(layout.begin((kind, which))), reference.FIRST_VARIABLE)
            more = -following.moved[which]
        else:
            which, more = following.words[which] if kind == "w" else (following.kept[which], 0)
            if which is None:
                return reference.plus(reference.FIRST_VARIABLE, reference.number(more))
        return reference.plus(reference.lifted(layout.of((kind, which))), reference.number(more))


def text(queues, found):
    """The certificate of all queues and harts. A hart that isn't covered has no states."""
    lines, records = ["ztso-queues 1"], found[0].program.records
    for which, queue in enumerate(queues):
        lines += [queue.text(), *(records.lines(which) if records and not queue.has_tags else ())]
    for hart in found:
        lines += ["hart", "open 0"] if hart.refused else Writer(hart.program, hart.search).lines()
    return "\n".join(lines) + "\n"
