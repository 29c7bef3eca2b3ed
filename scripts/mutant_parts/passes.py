"""Which edits go into one check: of each function one at most, and of a function and those that it calls only one.

A caller of a function that isn't proved isn't tried itself, so an edit of it would show nothing there.
"""

import re

from . import functions
from .edits import Unfit

# a call by its name or path: of two functions with one name it isn't known which is meant, so such calls don't count
CALL = re.compile(r"\b(\w+)\s*(?:::<[^()]*?>)?\(|::(\w+)")


class Calls:
    """Which functions of a crate lead to which, as far as their texts tell."""

    def __init__(self, crate):
        self.bodies = {}
        for file in sorted((crate / "src").rglob("*.rt")):
            text = file.read_text()
            code = functions.blanked(text)
            for one in functions.functions(text):
                words = {word for found in CALL.findall(code[one.begins:one.ends]) for word in found if word}
                self.bodies[key(file.relative_to(crate).as_posix(), one)] = words
        names = [name for _, _, name in self.bodies]
        self.known = {of[2]: of for of in self.bodies if names.count(of[2]) == 1}

    def reached(self, function):
        """All functions that a function leads to."""
        found, left = set(), [function]
        while left:
            for word in self.bodies.get(left.pop(), ()):
                if word in self.known and self.known[word] not in found:
                    found.add(self.known[word])
                    left.append(self.known[word])
        return found


def key(path, function):
    """What tells a function from the crate's others."""
    return path, function.owner, function.name


def body_changed(edit):
    """The file and the function whose body the edit changes, if it changes that alone; else None."""
    after = edit.applied()
    if len(after) != 1:
        return None
    (path, text), = after.items()
    function = functions.changed(edit.read(path), text) if path.startswith("src/") else None
    return function and (path, function)


def packed(edits, calls, waits=()):
    """Passes of edits, each with its function: a list of pairs for each pass, the functions called first.

    `waits` has pairs of edits of which a check said that the first one's function rests on the second one's.
    """
    reached = {edit: calls.reached(key(*function)) for edit, function in edits}
    passes = []
    for edit, function in sorted(edits, key=lambda pair: (len(reached[pair[0]]), pair[0].name)):
        of = key(*function)

        def is_apart(other, other_function):
            at = key(*other_function)
            known = {(edit.name, other.name), (other.name, edit.name)} & set(waits)
            return at != of and at not in reached[edit] and of not in reached[other] and not known

        fits = (one for one in passes if all(is_apart(*pair) for pair in one) and applies([*(other for other, _ in one), edit]))
        one = next(fits, None)
        if one is None:
            passes.append(one := [])
        one.append((edit, function))
    return passes


def applies(edits):
    """Whether these edits apply one after the other."""
    try:
        texts_of(edits)
    except Unfit:
        return False
    return True


def texts_of(edits):
    """The files that differ with all these edits."""
    texts = {}
    for edit in edits:
        texts = edit.applied(texts)
    return texts
