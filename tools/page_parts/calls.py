"""Calls of the program and of tools: each is a child of its own, with a time, a memory and an output that it may take,
and ends where the browser that asked has gone."""

import os
import resource
import selectors
import signal
import socket
import subprocess
import tempfile
import threading
import time
from pathlib import Path

SECONDS, OUTPUT, MEMORY = 60, 16 << 20, 8 << 30


class Failed(Exception):
    """A child that wasn't run to its end, in words for who asked."""


class Late(Failed):
    """A child that took longer than it may."""


class Gone(Exception):
    """Nobody waits for the answer any more."""


class Calls:
    """The children of a server."""

    def __init__(self, program):
        self.program, self.lock, self.children, self.ended = program, threading.Lock(), set(), False

    def of(self, connection):
        return CallsOf(self, connection)

    def start(self, words, **channels):
        with self.lock:
            if self.ended:
                raise Gone
            try:
                child = subprocess.Popen(words, start_new_session=True, **channels)
            except OSError as error:
                raise Failed(f"{Path(words[0]).name} can't be started: {error.strerror}") from None
            self.children.add(child)
        limited(child)
        return child

    def done(self, child):
        """Ends a child that still runs, and what it started; its status."""
        if child.poll() is None:
            killed(child)
        status = child.wait()
        with self.lock:
            self.children.discard(child)
        return status

    def end(self):
        with self.lock:
            self.ended = True
            for child in self.children:
                killed(child)


def limited(child):
    """Limits a child's memory, where the system can."""
    if hasattr(resource, "prlimit"):
        try:
            resource.prlimit(child.pid, resource.RLIMIT_AS, (MEMORY, MEMORY))
        except (OSError, ValueError):
            pass


def killed(child):
    """Kills a child and what it started: it leads a group of its own."""
    try:
        os.killpg(child.pid, signal.SIGKILL)
    except ProcessLookupError:
        pass


class CallsOf:
    """The calls that one request makes."""

    def __init__(self, calls, connection):
        self.calls, self.connection = calls, connection
        self.can = calls.program.can

    def ztso(self, command, *options, text=None, schedule=None, typed=""):
        """The status, standard output and standard error of a command on these texts."""
        files = {"test.litmus": text, "events.schedule": schedule}
        return self.run([str(self.calls.program.path), command, *options], files, typed)

    def run(self, words, files, typed=""):
        """A child's status, standard output and standard error. The files are written first, and their paths are its
        last words."""
        with tempfile.TemporaryDirectory(prefix="ztso-page-") as folder:
            given = {name: content for name, content in files.items() if content is not None}
            for name, content in (*given.items(), ("typed", typed)):
                # half of a surrogate pair is no UTF-8, which the program then says
                Path(folder, name).write_bytes(content.encode("utf-8", "surrogatepass"))
            with Path(folder, "typed").open("rb") as source:
                child = self.calls.start([*words, *(str(Path(folder, name)) for name in given)], stdin=source,
                                         stdout=subprocess.PIPE, stderr=subprocess.PIPE)
            try:
                written = self.written(child)
            finally:
                status = self.calls.done(child)
                child.stdout.close()
                child.stderr.close()
        if status < 0:
            raise Failed(f"{Path(words[0]).name} was ended by signal {-status}")
        return status, *(part.decode(errors="replace") for part in written)

    def written(self, child):
        """What a child writes to standard output and standard error."""
        until = time.monotonic() + SECONDS
        parts = {child.stdout: bytearray(), child.stderr: bytearray()}
        with selectors.DefaultSelector() as ready:
            for source in (*parts, self.connection):
                ready.register(source, selectors.EVENT_READ)
            ends = 0
            while ends < len(parts):
                left = until - time.monotonic()
                if left <= 0:
                    raise Late(f"the program took more than {SECONDS} seconds and was ended")
                for key, _ in ready.select(left):
                    if key.fileobj is self.connection:
                        self.waited_for(ready)
                        continue
                    ends += self.taken(key, ready, parts[key.fileobj])
        return parts.values()

    def waited_for(self, ready):
        """The browser has written more, or has gone."""
        if not self.connection.recv(1, socket.MSG_PEEK):
            raise Gone
        ready.unregister(self.connection)

    def taken(self, key, ready, part):
        """Takes what a child wrote to one of its ends, and whether that ended."""
        piece = os.read(key.fd, 1 << 16)
        part += piece
        if len(part) > OUTPUT:
            raise Failed("the program's answer is too long for the page")
        if not piece:
            ready.unregister(key.fileobj)
        return not piece
