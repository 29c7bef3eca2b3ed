"""Runs a program whose standard input is given bit by bit: at a pseudoterminal, or by a pipe that waits."""

import fcntl
import os
import pty
import subprocess
import termios
import threading
import time

from . import terminal

# the byte that ends what is typed at a terminal, at the beginning of a line
END = b"\x04"
# how long the second of two pieces waits
PAUSE = 1.2


class Taken(threading.Thread):
    """What a stream of the program has given so far."""

    def __init__(self, stream):
        super().__init__(daemon=True)
        self.stream, self.content = stream, b""
        self.start()

    def run(self):
        while more := os.read(self.stream.fileno(), 1 << 16):
            self.content += more


def wait_for(what, process, until):
    """Waits until something holds, or the program has ended. A program that doesn't come to it in time has no end."""
    while not what() and process.poll() is None:
        if time.monotonic() > until:
            raise subprocess.TimeoutExpired(process.args, until)
        time.sleep(0.001)


def unread(pipe):
    return int.from_bytes(fcntl.ioctl(pipe, termios.FIONREAD, bytes(4)), "little")


def bits_of(how, text):
    """What is given at once, in turn. A text of texts is cut after each line that is its first line again."""
    lines = text.splitlines(keepends=True)
    if how == "byte-by-byte":
        return [bytes([byte]) for byte in text]
    if how == "at-a-terminal":
        return [*lines, END]
    if how == "line-by-line":
        return lines
    if how == "in-two-pieces":
        return [text[:len(text) // 2], text[len(text) // 2:]]
    heads = [at + 1 for at, line in enumerate(lines) if at and line == lines[0]]
    return [b"".join(lines[begin:end]) for begin, end in zip([0, *heads], [*heads, len(lines)])]


def run(how, text, words, folder, environment, seconds, at_terminal=False):
    """The status, standard error (a pseudoterminal if asked for) and standard output. A line is typed at a
    terminal once the prompt for it stands on standard error, and given by a pipe once the line before it was
    answered on standard output; a text of several is answered once the next one has begun; a byte is given once
    the one before it was read; of two pieces the second waits for more than a second."""
    inner, outer = os.pipe() if how != "at-a-terminal" else reversed(pty.openpty())
    shown, written = pty.openpty() if at_terminal else (None, subprocess.PIPE)
    until = time.monotonic() + seconds
    with subprocess.Popen(words, stdin=inner, stdout=subprocess.PIPE, stderr=written, cwd=folder,
                          env=environment) as process:
        answers, errors = Taken(process.stdout), terminal.Drain(shown) if at_terminal else Taken(process.stderr)
        bits = bits_of(how, text)
        try:
            for place, bit in enumerate(bits):
                before = len(errors.content if how == "at-a-terminal" else answers.content)
                if how == "at-a-terminal":
                    wait_for(lambda: errors.content.endswith(b"> "), process, until)
                    time.sleep(0.02)
                os.write(outer, bit)
                if how == "in-two-pieces":
                    time.sleep(0 if place else PAUSE)
                elif how == "byte-by-byte":
                    wait_for(lambda: not unread(inner), process, until)
                elif how == "at-a-terminal":
                    if bit != END:
                        wait_for(lambda: len(errors.content) > before, process, until)
                elif how == "line-by-line" or place + 1 < len(bits):
                    wait_for(lambda: len(answers.content) > before, process, until)
        except BrokenPipeError:
            pass  # the program reads no more
        except subprocess.TimeoutExpired:
            process.kill()
            raise
        finally:
            os.close(inner)
            if how != "at-a-terminal":
                os.close(outer)
        try:
            status = process.wait(max(0.1, until - time.monotonic()))
        finally:
            process.kill()
        answers.join(1)
        if at_terminal:
            os.close(written)
        errors.join(1)
    if at_terminal:
        os.close(shown)
    if how == "at-a-terminal":
        os.close(outer)
    return status, errors.content, answers.content
