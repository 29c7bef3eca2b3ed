"""Whether the states that were found of a hart show that it goes on: the search prefers those that do.

A queue's party is idle at an instruction that moves no count of its own, while it may own more positions than it waits for, and, of a queue whose
slots tell, isn't told by it that a slot is the other's. It goes on if no states lead round to one another by such instructions alone.
"""

from .steps import AMO, LOAD, leaves


def ends(edges):
    """Whether no way along the edges goes on for ever: from each node, by its number, to others."""
    before, left = {}, {node: len(to) for node, to in edges.items()}
    for node, to in edges.items():
        for other in to:
            before.setdefault(other, []).append(node)
    todo = [node for node, number in left.items() if not number]
    for node in todo:
        for other in before.get(node, ()):
            left[other] -= 1
            if not left[other]:
                todo.append(other)
    return len(todo) == len(edges)


def is_idle(program, leaf, at, following, waits_for):
    """Whether a hart neither moves a count nor finds that it has to wait as it goes from a leaf to the state that follows, the first or a later one:
    of each of its queues it may own more than it waits for, and no tag tells it that a slot is the other's."""
    is_told = at and leaf.pc < 4 * len(program.code) and program.code[leaf.pc // 4] & 127 in (LOAD, AMO)
    shares = [(share, queue) for share, queue in zip(leaf.shares, program.queues) if share]
    return not any(following.moved) and not is_told and all(queue.has_tags or share.high > waits_for for share, queue in shares)


def goes_on(program, search):
    """Whether the states show that a hart moves a count again and again, or finds that it owns none, or fewer than half of the positions of a queue."""
    capacities = [1 if queue.has_tags else queue.capacity for queue, party in zip(program.queues, program.parties) if party is not None]
    if not capacities:
        return True
    trees = search.reached()
    numbers = {state: number for number, state in enumerate(trees)}
    ways = [[(leaf, at, following, numbers[search.covering(following.state)]) for _, leaf, after in leaves(tree) for at, following in enumerate(after)]
            for tree in trees.values()]
    return any(ends({number: {to for *way, to in each if is_idle(program, *way, waits_for)} for number, each in enumerate(ways)})
               for waits_for in dict.fromkeys((0, (min(capacities) - 1) // 2)))
