"""What is done of records: which bytes a party wrote of the records that it is to publish, or read of those that it is to hand back, where that is asked.

Of a queue it is a number with a bit for each byte, from the own count on: bit `width * d + b` is byte b of the position that is d further. A search may
tell states apart by it, so that a loop's turns, and what comes after more or fewer of them, aren't joined. Like the whole search this is trusted with
nothing.
"""

from operator import and_

import certificates as reference
from queue_questions import bytes_named, counts, without

from . import tags
from .steps import Refused, leaves


def wanted_of(queue, hart, asked):
    """The bytes of each record of a queue that a hart is to write, if it sends there, or to read. `asked` names the ones and the others, or None. A tag's
    bytes aren't among them: the store that publishes a record writes its tag, and a load of that tells of it."""
    party = queue.party(hart)
    if party is None or asked[party] is None:
        return 0
    ranges = bytes_named(asked[party], queue.width)
    if queue.has_tags and not queue.has_tags_apart():
        ranges = without(ranges, queue.tag_offset, queue.tag_offset + queue.tag_width - 1)
    return sum((2 << last) - (1 << first) for first, last in ranges)


def done_at(program, leaf):
    """Of each queue what the instruction of a leaf does of what is wanted."""
    access, done = program.accessed(leaf), [0] * len(program.queues)
    for which, (queue, party, wanted) in enumerate(zip(program.queues, program.parties, program.wanted)):
        if access and wanted and (access.loads if party else access.stores) and counts(reference.meaning(program.code[leaf.pc // 4]), not party):
            at = tags.place_in(program, which, leaf, access.place, access.width)
            if at and at[0] < leaf.shares[which].low:
                done[which] = ((1 << access.width) - 1 << at[1] & wanted) << queue.width * at[0]
    return done


def done_after(program, before, new, moved):
    """What is done after a leaf that does something more, and moves the own counts on; None if not all is that is wanted of a record that it hands on."""
    found = []
    for queue, wanted, old, more, step in zip(program.queues, program.wanted, before, new, moved):
        handed = sum(wanted << queue.width * d for d in range(step))
        if old & handed != handed:
            return None
        found.append((old | more) >> queue.width * step)
    return tuple(found)


def tree_of(program, state):
    """The case tree of a state. Of one that has what is done, what follows has it too; Refused where a record is handed on of which not all is."""
    tree = program.tree(state)
    return with_done(program, tree) if state.done else tree


def with_done(program, tree):
    """A case tree where what follows has what is done then."""
    if tree[0] == "split":
        return *tree[:3], with_done(program, tree[3]), with_done(program, tree[4])
    _, leaf, following = tree
    new, found = done_at(program, leaf), []
    for each in following:
        done = done_after(program, leaf.done, new, each.moved)
        if done is None:
            raise Refused(leaf.pc, "a record is handed on of which a byte isn't known to be written, or read")
        found.append(each._replace(state=each.state._replace(done=done)))
    return "leaf", leaf, found


def is_shown(program, search):
    """Whether the states that are reached show that all that is wanted is done of each record that is handed on."""
    if not any(program.wanted):
        return True
    steps = {state: [(done_at(program, leaf), each.moved, search.covering(each.state)) for _, leaf, following in leaves(tree) for each in following]
             for state, tree in search.reached().items()}
    first = search.covering(program.start)
    done, todo = {first: (0,) * len(program.queues)}, [first]
    while todo:
        state = todo.pop()
        for new, moved, to in steps[state]:
            after = done_after(program, done[state], new, moved)
            if after is None:
                return False
            after = tuple(map(and_, done.get(to, after), after))
            if done.get(to) != after:
                done[to] = after
                todo.append(to)
    return True
