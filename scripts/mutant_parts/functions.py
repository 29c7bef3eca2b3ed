"""The functions of a source as text: where their bodies begin and end, and what stands outside of bodies.

The text is read as a lexer would read it, without a grammar: comments, strings and characters are blanked, and brackets
are counted. What isn't understood stays outside of every body, so that an edit there is tried by itself.
"""

import re
from typing import NamedTuple

# what may hold a bracket or a word that isn't one of the code's; a quote before a word alone is a lifetime's
NO_CODE = re.compile(r"""//[^\n]*|/\*.*?\*/|b?r(#*)".*?"\1|b?"(?:\\.|[^"\\])*"|b?'(?:\\(?:u\{[^}]*\}|x..|.)|[^\\'\n])'""", re.DOTALL)
HEAD = re.compile(r"\b(?P<kind>fn|impl|trait|macro_rules!)\s*(?P<rest>(?P<name>\w+)?)")
CLAUSE = re.compile(r"\b(?:requires|ensures|ghost)\*?\s*(?:\w+\s*)?(?::\s*)?$")
CLOSING = {"(": ")", "[": "]", "{": "}"}


class Function(NamedTuple):
    """A function with a body that no other function encloses."""

    name: str
    # the head of the impl or trait that it stands in, or nothing
    owner: str
    # its first and last line, from 1: the first is that of its attributes, where it has some
    first: int
    last: int
    # where its body stands in the text, between the braces
    begins: int
    ends: int


def blanked(text):
    """The text with blanks in place of comments, strings and characters, as long as before."""
    return NO_CODE.sub(lambda found: re.sub(r"[^\n]", " ", found[0]), text)


def closing(code, at):
    """Where the bracket at a place is closed; at the end where it isn't."""
    opened, closed = code[at], CLOSING[code[at]]
    depth = 0
    for found in re.finditer(rf"[\{opened}\{closed}]", code[at:]):
        depth += 1 if found[0] == opened else -1
        if not depth:
            return at + found.start()
    return len(code)


def opening(code, at):
    """Where the block begins of a function, an impl or a trait whose head is at a place; None where a `;` ends it."""
    began = at
    while found := re.compile(r"[({\[;]").search(code, at):
        at = found.start()
        if found[0] == ";":
            return None
        if found[0] == "{" and not CLAUSE.search(code[began:at]):
            return at
        at = closing(code, at) + 1
        # what stands before a clause's brace is looked at from the last bracket on
        began = at
    return None


def is_const(code, at):
    """Whether the function whose `fn` stands there is evaluated where a constant is checked, so that its body is a statement."""
    return bool(re.search(r"\bconst\s+(?:unsafe\s+)?$", code[:at]))


def beginning(code, at):
    """Where the item begins, with its attributes, whose `fn` stands at a place."""
    return re.compile(r"\s*").match(code, max(code.rfind(end, 0, at) for end in "{};") + 1).end()


def functions(text):
    """The functions of a source that have a body of their own, in their order."""
    code, owners, found, at = blanked(text), [], [], 0
    while head := HEAD.search(code, at):
        begins = opening(code, head.end())
        if begins is None:
            at = head.end()
            continue
        ends = closing(code, begins)
        at = begins + 1
        if head["kind"] == "macro_rules!":
            at = ends
        elif head["kind"] != "fn":
            owners.append((ends, " ".join(code[head.start():begins].split())))
        elif not head["name"]:
            at = head.end()  # the type of a function
        elif not is_const(code, head.start()):
            owner = next((words for end, words in reversed(owners) if end > begins), "")
            lines = [code.count("\n", 0, place) + 1 for place in (beginning(code, head.start()), ends)]
            found.append(Function(head["name"], owner, *lines, begins + 1, ends))
            at = ends
    return found


def without_bodies(text):
    """The pieces of a text that stand outside of its functions' bodies."""
    places = [0, *(place for one in functions(text) for place in (one.begins, one.ends)), len(text)]
    return [text[first:last] for first, last in zip(places[::2], places[1::2])]


def bare(text):
    """The text with blanks in place of comments, as long as before."""
    return NO_CODE.sub(lambda found: re.sub(r"[^\n]", " ", found[0]) if found[0].startswith("/") else found[0], text)


def changed(before, after):
    """The function of which `after` changes the body and nothing else; None where there is no such one."""
    old, new = functions(before), functions(after)
    if len(old) != len(new) or without_bodies(before) != without_bodies(after):
        return None
    differ = [one for one, other in zip(old, new) if before[one.begins:one.ends] != after[other.begins:other.ends]]
    return differ[0] if len(differ) == 1 else None
