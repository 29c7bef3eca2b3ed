"""Runs a program whose standard error is a pseudoterminal, and tells what a terminal shows of it."""

import os
import pty
import re
import subprocess
import threading

RETURN, ERASE, LINE_END = b"\r", b"\x1b[K", b"\r\n"
PIECE = re.compile(rb"\r\n|\r|\x1b\[K|\x1b|[^\r\x1b]+")


class Drain(threading.Thread):
    """Takes all that the program writes to the pseudoterminal, until no one has it open."""

    def __init__(self, outer):
        super().__init__(daemon=True)
        self.outer, self.content = outer, b""
        self.start()

    def run(self):
        try:
            while more := os.read(self.outer, 1 << 16):
                self.content += more
        except OSError:
            pass  # a pseudoterminal that no one has open can't be read


def shown(content):
    """What a terminal shows at the end, and the texts there that were written over or erased, the last one last."""
    above, line, at, gone = b"", b"", 0, []
    for piece in PIECE.findall(content):
        if piece == LINE_END:
            above, line, at = above + line + b"\n", b"", 0
        elif piece == RETURN:
            at = 0
        elif piece == ERASE:
            gone, line = gone + [line[at:]] * bool(line[at:]), line[:at]
        else:
            gone += [line[at:]] * bool(line[at:])
            line = line[:at] + piece + line[at + len(piece):]
            at += len(piece)
    return above + line, gone


def run(words, **options):
    """The ended run and what it wrote to standard error, a pseudoterminal."""
    outer, inner = pty.openpty()
    drain = Drain(outer)
    try:
        done = subprocess.run(words, stderr=inner, check=False, **options)
    finally:
        os.close(inner)
        drain.join(1)
        os.close(outer)
    return done, drain.content
