"""The groups of lines that the directives of a C file's preprocessor part, as `#ifdef`, `#else` and `#endif`: which of them a compiler takes."""

import re

# a directive in a code whose comments are blank, with the lines in which it goes on
DIRECTIVE = re.compile(r"^[ \t]*#[ \t]*(?:if|ifdef|ifndef|elif|elifdef|elifndef|else|endif)\b(?:[^\n]*\\\n)*[^\n]*", re.MULTILINE)
MARK = "ztso_group_"
MARKED = re.compile(rf"\b{MARK}([0-9]+)\b")


def only_taken(code, plain, preprocessed):
    """A code without comments, with blanks in place of the groups that aren't taken. `preprocessed` returns what a compiler makes of a code
    before it compiles it, or None if it complains; then all groups are left."""
    ends = [found.end() for found in DIRECTIVE.finditer(plain)]
    if not ends:
        return plain
    printed = preprocessed(with_marks(code, ends))
    if printed is None:
        return plain
    taken = {int(number) for number in MARKED.findall(printed)}
    for number, (begin, end) in enumerate(zip(ends, [*ends[1:], len(plain)])):
        if number not in taken:
            plain = plain[:begin] + re.sub(r"[^\n]", " ", plain[begin:end]) + plain[end:]
    return plain


def with_marks(code, ends):
    """The code with a line after each directive that names the group that begins there."""
    parts = [code[:ends[0]]]
    for number, (begin, end) in enumerate(zip(ends, [*ends[1:], len(code)])):
        parts.append(f"\n{MARK}{number}{code[begin:end]}")
    return "".join(parts)
