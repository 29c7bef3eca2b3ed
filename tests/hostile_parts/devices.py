"""Streams and files that fail, come a byte at a time, or change while they are read."""

import errno
import os
import subprocess
import threading
import time
from pathlib import Path

from kit import running

from . import examples
from .runs import READ_FAILED, SECONDS, WRITE_FAILED, brief

KINDS = ["read failed", "write failed", "byte by byte", "closed while it wrote", "past a limit of a file",
         "grown and cut", "standard error closed", "nth read failed", "nth write failed", "interrupted", "short calls"]
FIFO = "fifo"

# Put before the C library, it answers the nth call of `read`, or of `write` to standard output, with an error, and
# leaves a file where it came to that call; or, where no number is given, it moves one byte a call.
FAILING = r"""
#define _GNU_SOURCE
#include <dlfcn.h>
#include <errno.h>
#include <fcntl.h>
#include <stdlib.h>
#include <string.h>
#include <unistd.h>

static int fails(const char *name, size_t *count) {
    static long left = -1;
    if (strcmp(getenv("FAILING_CALL"), name)) return 0;
    if (left < 0) left = atol(getenv("FAILING_NUMBER"));
    if (left == 0) {
        if (!atol(getenv("FAILING_NUMBER")) && *count > 1) *count = 1;
        return 0;
    }
    if (--left > 0) return 0;
    close(open(getenv("FAILURE_SEEN"), O_WRONLY | O_CREAT, 0600));
    errno = atol(getenv("FAILING_ERROR"));
    return 1;
}

ssize_t read(int file, void *bytes, size_t count) {
    static ssize_t (*next)(int, void *, size_t);
    if (!next) next = (ssize_t (*)(int, void *, size_t))dlsym(RTLD_NEXT, "read");
    return fails("read", &count) ? -1 : next(file, bytes, count);
}

ssize_t write(int file, const void *bytes, size_t count) {
    static ssize_t (*next)(int, const void *, size_t);
    if (!next) next = (ssize_t (*)(int, const void *, size_t))dlsym(RTLD_NEXT, "write");
    return file == 1 && fails("write", &count) ? -1 : next(file, bytes, count);
}

ssize_t __write(int file, const void *bytes, size_t count) { return write(file, bytes, count); }
"""


def commands(short):
    """A run of each kind that has an output, but `threads`, whose output is another one each time."""
    rows = [row for row in examples.kinds() if row[0][0] != "threads"]
    chosen = {}
    for row in rows:
        chosen.setdefault(tuple(row[0][:2]) if row[0][0] == "channel" else row[0][0], row)
    return list(chosen.values()) if short else rows


def reads_stdin(words):
    return words[0] in ("steps", "asm", "dis", "channel", "ring", *examples.INTERACTIVE)


def feed(where, content):
    """Writes to a pipe, or to a FIFO that it opens, a byte at a time."""
    with open(where, "wb", buffering=0) as file:
        for byte in content:
            try:
                file.write(bytes([byte]))
            except BrokenPipeError:
                return
            time.sleep(0.0001)


def failed_reads(runs, words, stdin):
    """A stream or a file from which nothing can be read."""
    if reads_stdin(words):
        done = subprocess.run(["/bin/bash", "-c", 'exec "$0" "$@" <&-', runs.program, *words], capture_output=True)
        came = done.returncode, done.stderr, done.stdout
        # a debugger whose commands are closed may have none
        right = came == READ_FAILED or words[0] == "debug" and came == (0, b"", b"")
        runs.hold("read failed", right, brief(came), words, note="<&-")
        with open(os.devnull, "wb") as only_written:
            came = runs.run(words, stdin=only_written)
        runs.hold("read failed", came == READ_FAILED, brief(came), words, note="< a stream that can't be read")
        folder = os.open(".", os.O_RDONLY)
        came = runs.run(words, stdin=folder)
        os.close(folder)
        runs.hold("read failed", came == READ_FAILED, brief(came), words, note="< a folder")
    for at, word in enumerate(words):
        if word.endswith((".litmus", ".schedule")):
            for other in (".", "no-such-file", f"{words[0]}/none", "", "/proc/self/mem"):
                changed = [*words[:at], other, *words[at + 1:]]
                came = runs.run(changed, stdin)
                runs.hold("read failed", came == READ_FAILED, brief(came), changed, stdin)


def failed_writes(runs, words, stdin, own):
    """Standard output that takes nothing, or stops to take."""
    if not own[2]:
        return
    with open("/dev/full", "wb") as full, open(os.devnull, "rb") as only_read:
        for stream, name in ((full, "/dev/full"), (only_read, "a stream that can't be written")):
            came = runs.run(words, stdin, stdout=stream)
            runs.hold("write failed", came[:2] == WRITE_FAILED, brief(came), words, stdin, f"> {name}")
    for name, way in (("closed standard output", ">&-"), ("a pipe that nothing reads", "| :")):
        # bash returns for a pipe the program's status, not that of its end
        line = f'"$0" "$@" {way}; exit ${{PIPESTATUS[0]}}' if "|" in way else f'exec "$0" "$@" {way}'
        done = subprocess.run(["/bin/bash", "-c", line, runs.program, *words], input=stdin, capture_output=True)
        answer = done.returncode, done.stderr
        # a pipe that is closed late takes a short output
        right = answer == WRITE_FAILED or "|" in way and answer == own[:2]
        runs.hold("write failed", right, answer, words, stdin, name)


def failing_calls(runs, words, stdin, own, failing):
    """Each read and each write fails in turn; each is interrupted in turn, and made again; all of them move one byte."""
    seen = Path(runs.folder, "failure")
    for call, answer in (("read", READ_FAILED[:2]), ("write", WRITE_FAILED)):
        def came_of(number, error):
            return runs.run(words, stdin, {"LD_PRELOAD": str(failing), "FAILING_CALL": call, "FAILURE_SEEN": str(seen),
                                           "FAILING_NUMBER": str(number), "FAILING_ERROR": str(error)})

        came = came_of(0, 0)
        runs.hold("short calls", came == own, brief(came), words, stdin, f"each {call} of one byte")
        for error in (errno.EIO, errno.EINTR):
            for number in range(1, 2000):
                came = came_of(number, error)
                if not seen.exists():
                    break
                seen.unlink()
                begun = own[2].startswith(came[2]) and (call == "write" or words[0] in examples.INTERACTIVE or not came[2])
                if error == errno.EINTR:
                    kind, right = "interrupted", came == own
                else:
                    kind, right = f"nth {call} failed", came[:2] == answer and begun
                runs.hold(kind, right, brief(came), words, stdin, f"{call} {number}, errno {error}")


def cut_pipe(runs, words, stdin, own):
    """A reader of the output that goes after some bytes: what it got is a beginning of the answer."""
    for taken in sorted({1, len(own[2]) // 2}):
        process = subprocess.Popen([runs.program, *words], stdin=subprocess.PIPE, stdout=subprocess.PIPE,
                                   stderr=subprocess.PIPE)
        try:
            process.stdin.write(stdin)
            process.stdin.close()
        except BrokenPipeError:
            pass
        got = os.read(process.stdout.fileno(), taken)
        process.stdout.close()
        fault = process.stderr.read()
        process.stderr.close()
        status = process.wait(SECONDS)
        right = own[2].startswith(got) and (status, fault) in (WRITE_FAILED, own[:2])
        runs.hold("closed while it wrote", right, (status, fault, got), words, stdin)


def limited_file(runs, words, stdin, own):
    """A file that may have 1 KiB: the write that passes it is short, and the next one fails."""
    line = 'trap "" XFSZ; ulimit -f 1; exec "$0" "$@" > limited'
    done = subprocess.run(["/bin/bash", "-c", line, runs.program, *words], input=stdin, capture_output=True)
    got, answer = Path("limited").read_bytes(), (done.returncode, done.stderr)
    right = (answer, got) == (own[:2], own[2]) if len(own[2]) <= 1024 else \
        answer == WRITE_FAILED and len(got) <= 1024 and own[2].startswith(got)
    runs.hold("past a limit of a file", right, (answer, len(got)), words, stdin)


def byte_by_byte(runs, words, stdin, own):
    """Standard input from a pipe, and each file in turn from a FIFO, that give a byte at a time."""
    def held(words, where, content, given):
        feeder = threading.Thread(target=feed, args=(where, content))
        feeder.start()
        came = runs.run(words, given)
        # where the program didn't open the FIFO, the feeder waits for someone who does
        opened = os.open(FIFO, os.O_RDONLY | os.O_NONBLOCK)
        feeder.join()
        os.close(opened)
        runs.hold("byte by byte", came == own, brief(came), words, stdin)

    if reads_stdin(words):
        given, taken = os.pipe()
        held(words, taken, stdin, given)
        os.close(given)
    for at, word in enumerate(words):
        if word.endswith((".litmus", ".schedule")):
            held([*words[:at], FIFO, *words[at + 1:]], FIFO, Path(word).read_bytes(), stdin)


def closed_error(runs, words, stdin):
    """A refusal whose line can't be written keeps its status."""
    done = subprocess.run(["/bin/bash", "-c", 'exec "$0" "$@" 2>&-', runs.program, "steps"], input=b"no line\n",
                          capture_output=True)
    answer = done.returncode, done.stdout, done.stderr
    runs.hold("standard error closed", answer == (2, b"", b""), answer, ["steps"])


def changing_file(runs, rounds):
    """A text of equal lines that grows and is cut while it is read: the answer is that of some number of lines, or
    names the last one where a cut left a front of it."""
    line, wanted = b"fe029ee3\n", b"bne x5,x0,-4\n"
    name = Path("changing")
    name.write_bytes(line * 60_000)
    going = True

    def change():
        with open(name, "ab", buffering=0) as file:
            while going:
                os.ftruncate(file.fileno(), len(line) * runs.draw.randrange(60_000))
                file.write(line * runs.draw.randrange(20_000))

    changer = threading.Thread(target=change)
    changer.start()
    for _ in range(rounds):
        with open(name, "rb") as file:
            status, fault, text = runs.run(["dis"], stdin=file)
        whole = status == 0 and not fault and text == wanted * (len(text) // len(wanted))
        cut = status == 2 and not text and fault.startswith((b"ztso: refused 34 at line ", b"ztso: refused 37"))
        runs.hold("grown and cut", whole or cut, (status, fault, text[:40]), ["dis"])
    going = False
    changer.join()


def part(runs):
    os.mkfifo(FIFO)
    rows = commands(runs.short)
    failing = running.preloaded(runs.folder, "failing", FAILING)
    if failing is None:
        runs.hold("nth read failed", False, "cc can't compile what fails a call", [])
    for words, stdin, files in rows:
        runs.put(files)
        own = runs.compare("byte by byte", words, stdin)
        failed_reads(runs, words, stdin)
        failed_writes(runs, words, stdin, own)
        byte_by_byte(runs, words, stdin, own)
        if failing:
            failing_calls(runs, words, stdin, own, failing)
        if own[2]:
            cut_pipe(runs, words, stdin, own)
            limited_file(runs, words, stdin, own)
    long = b"fe029ee3 " * 40_000
    own = runs.compare("byte by byte", ["dis"], long)
    cut_pipe(runs, ["dis"], long, own)
    limited_file(runs, ["dis"], long, own)
    closed_error(runs, [], b"")
    changing_file(runs, 20 if runs.short else 400)
    runs.counts(f"devices, {len(rows)} commands", KINDS)
