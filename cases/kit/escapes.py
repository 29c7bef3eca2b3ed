"""Bytes as lines that one can see, and back: README.md lists the escapes.

A text is a list of pieces `(how often, bytes)`. Reading what was written gives the same bytes.
"""

import re

# `\` before anything else stands for itself, as in a litmus condition's `/\`
ESCAPE = re.compile(r"\\(\\|r|t|x[0-9A-Fa-f]{2}|$)|[^\\]+|\\")
SHORT = {"\r": r"\r", "\t": r"\t"}
READ_AS_ESCAPE = re.compile(r"[\\rt]|x[0-9A-Fa-f]{2}|$")
REPEATED = re.compile(r"([0-9]+) x(?: (.*))?")
PLAIN_WORD = re.compile(r"[A-Za-z0-9_./+=,:@%-]+")
QUOTED = re.compile(r"\$'((?:[^\\']|\\[^'])*)'|'([^']*)'|([A-Za-z0-9_./+=,:@%-]+)")

# longer lines are cut behind a blank, for the reader's sake
WIDTH, LONGEST = 110, 160
# a byte or a line that comes more often than this is written once
RUN_OF_BYTES, RUN_OF_LINES = 100, 16


def shown(content):
    """Bytes as characters that one can see, and that read_line reads as the same bytes."""
    parts = []
    for character in content.decode("utf-8", "surrogateescape"):
        if character in SHORT:
            parts.append(SHORT[character])
        elif character.isprintable():
            parts.append(character)
        else:
            raw = character.encode("utf-8", "surrogateescape")
            parts.append("".join(f"\\x{byte:02X}" for byte in raw))
    if parts and parts[-1] == " ":
        parts[-1] = r"\x20"
    behind = ""
    for token in reversed(parts):
        alone = token == "\\" and READ_AS_ESCAPE.match(behind)
        behind = ("\\\\" if alone else token) + behind
    return behind


def read_line(line):
    """The bytes of a written line, its line end among them where it has one."""
    parts, ended = [], True
    for match in ESCAPE.finditer(line):
        escape = match[1]
        if escape is None:
            parts.append(match[0].encode())
        elif escape == "":
            ended = False
        elif escape[0] == "x":
            parts.append(bytes([int(escape[1:], 16)]))
        else:
            parts.append({"\\": b"\\", "r": b"\r", "t": b"\t"}[escape])
    return b"".join(parts) + (b"\n" if ended else b"")


def content(pieces):
    """The bytes of a text."""
    return b"".join(count * piece for count, piece in pieces)


def pieces_of(text):
    """A text's pieces, where each long run of one line, or of one byte in a line, is a piece."""
    pieces = []
    for line in text.split(b"\n"):
        pieces += [(1, line), (1, b"\n")]
    pieces.pop()
    pieces = [part for _, piece in pieces for part in cut_at_runs(piece)]
    return joined(repeated_lines(pieces))


def cut_at_runs(line):
    run = re.compile(rb"(.)\1{%d,}" % (RUN_OF_BYTES - 1), re.DOTALL)
    at = 0
    for match in run.finditer(line):
        yield 1, line[at:match.start()]
        yield match.end() - match.start(), match[1]
        at = match.end()
    yield 1, line[at:]


def repeated_lines(pieces):
    """The pieces, with equal lines that follow each other as one."""
    lines = re.compile(rb"((?:^|(?<=\n))[^\n]*\n)\1{%d,}" % (RUN_OF_LINES - 1))
    for count, piece in joined(pieces):
        at = 0
        for match in lines.finditer(piece) if count == 1 else ():
            yield 1, piece[at:match.start()]
            yield len(match[0]) // len(match[1]), match[1]
            at = match.end()
        yield count, piece[at:]


def joined(pieces):
    """The pieces without empty ones, and with neighbours that come once as one."""
    merged = []
    for count, piece in pieces:
        if not piece or not count:
            continue
        if count == 1 and merged and merged[-1][0] == 1:
            piece = merged.pop()[1] + piece
        merged.append((count, piece))
    return merged


def lines_of(pieces):
    """The lines of a case file for a text."""
    lines = [line for count, piece in pieces for line in piece_lines(count, piece)]
    if lines and not lines[-1]:
        # empty lines behind a text are none of it
        lines[-1] = r"  \x0A" + "\\"
    return lines


def piece_lines(count, piece):
    if count > 1:
        ended = piece.endswith(b"\n")
        text = shown(piece[:-1] if ended else piece) + ("" if ended else "\\")
        return [f"{count} x {text}".rstrip(" ")]
    *lines, last = map(shown, piece.split(b"\n"))
    lines += [last + "\\"] if last else []
    return [f"  {part}".rstrip(" ") for line in lines for part in wrapped(line)]


def wrapped(line):
    """A line, or its parts where it is too long to be read."""
    while len(line) > LONGEST:
        at = line.rfind(" ", 0, WIDTH)
        if at < WIDTH // 2:
            break
        yield line[:at + 1] + "\\"
        line = line[at + 1:]
    yield line


def quoted(word):
    """A word of a command line as the shell reads it."""
    text = word.decode("utf-8", "surrogateescape")
    if PLAIN_WORD.fullmatch(text):
        return text
    if text.isprintable() and "'" not in text:
        return f"'{text}'"
    parts = (shown(part).replace("'", r"\x27") for part in word.split(b"\\"))
    return "$'" + r"\\".join(parts) + "'"


def read_words(line):
    """The words of a command line, or None where it isn't made of plain and quoted words."""
    words, at = [], 0
    while at < len(line):
        match = QUOTED.match(line, at)
        if not match or line[match.end():match.end() + 1] not in ("", " "):
            return None
        odd, quote, plain = match.groups()
        words.append(read_line(odd)[:-1] if odd is not None else (quote or plain or "").encode())
        at = match.end() + 1
    return words
