"""Calls that answer oddly: a write that takes nothing, a line's read for which there is no memory, and allocations that
are refused to the threads of `threads` alone."""

import errno
from pathlib import Path

from kit import running

from . import examples
from .runs import NO_MEMORY, WRITE_FAILED, brief

KINDS = ["a write that takes nothing", "no memory for a read", "no memory for a thread", "answers of threads"]
TEST, SCHEDULE = "litmus/store-buffering/sb.litmus", "examples/store-buffering.schedule"
RECORDS = b"ztso-schedule 2\na0 store 0 0 1\n"
# the most allocations of a run's threads
MOST = 200

# Put before the C library, it answers the nth write to standard output with 0 and leaves a file where the program writes
# on; or the nth read of standard input with the error ENOMEM; or it refuses the nth allocation of other threads than the
# first, and leaves a file where it came to that.
ODD = r"""
#define _GNU_SOURCE
#include <dlfcn.h>
#include <errno.h>
#include <fcntl.h>
#include <stdlib.h>
#include <string.h>
#include <sys/syscall.h>
#include <unistd.h>

static void seen(void) { close(open(getenv("ODD_SEEN"), O_WRONLY | O_CREAT, 0600)); }

static int is(const char *name) { return !strcmp(getenv("ODD_CALL"), name); }

ssize_t write(int file, const void *bytes, size_t count) {
    static ssize_t (*next)(int, const void *, size_t);
    static long made;
    if (!next) next = (ssize_t (*)(int, const void *, size_t))dlsym(RTLD_NEXT, "write");
    if (file == 1 && is("write") && ++made >= atol(getenv("ODD_NUMBER"))) {
        if (made == atol(getenv("ODD_NUMBER"))) return 0;
        seen();
    }
    return next(file, bytes, count);
}

ssize_t __write(int file, const void *bytes, size_t count) { return write(file, bytes, count); }

ssize_t read(int file, void *bytes, size_t count) {
    static ssize_t (*next)(int, void *, size_t);
    static long made;
    if (!next) next = (ssize_t (*)(int, void *, size_t))dlsym(RTLD_NEXT, "read");
    if (file == 0 && is("read") && ++made == atol(getenv("ODD_NUMBER"))) {
        errno = ENOMEM;
        return -1;
    }
    return next(file, bytes, count);
}

static int is_refused(void) {
    static long left;
    if (!is("allocate") || getpid() == syscall(SYS_gettid)) return 0;
    if (__atomic_add_fetch(&left, 1, __ATOMIC_SEQ_CST) < atol(getenv("ODD_NUMBER"))) return 0;
    seen();
    errno = ENOMEM;
    return 1;
}

void *malloc(size_t size) {
    static void *(*next)(size_t);
    if (!next) next = (void *(*)(size_t))dlsym(RTLD_NEXT, "malloc");
    return is_refused() ? NULL : next(size);
}

void *realloc(void *block, size_t size) {
    static void *(*next)(void *, size_t);
    if (!next) next = (void *(*)(void *, size_t))dlsym(RTLD_NEXT, "realloc");
    return is_refused() ? NULL : next(block, size);
}
"""


class Odd:
    """The program below what makes a call answer oddly."""

    def __init__(self, runs, library):
        self.runs, self.library, self.seen = runs, library, Path(runs.folder, "odd")

    def run(self, words, call, number, stdin=b""):
        """The answer, and whether the file was left."""
        self.seen.unlink(missing_ok=True)
        came = self.runs.run(words, stdin, {"LD_PRELOAD": str(self.library), "ODD_CALL": call, "ODD_NUMBER": str(number),
                                            "ODD_SEEN": str(self.seen)})
        return came, self.seen.exists()


def writes(odd):
    """A write that takes nothing has failed, and the program writes no more to that stream."""
    for words, stdin, files in examples.kinds():
        if words[0] == "threads":
            continue
        odd.runs.put(files)
        own = odd.runs.run(words, stdin)
        if own[2]:
            came, wrote_on = odd.run(words, "write", 1, stdin)
            right = came[:2] == WRITE_FAILED and not came[2] and not wrote_on
            odd.runs.hold(KINDS[0], right, f"{brief(came)} {'wrote on' if wrote_on else ''}", words, stdin)


def reads(odd):
    """Where a line's read has no memory the answer is that there is none."""
    for words, stdin in ((["check", TEST], RECORDS), (["debug", TEST, SCHEDULE], b"s\nq\n")):
        came, _ = odd.run(words, "read", 1, stdin)
        odd.runs.hold(KINDS[1], came == NO_MEMORY, brief(came), words, stdin, f"errno {errno.ENOMEM}")


def threads(odd):
    """A thread that finds no memory makes it the answer: 35 says only that the system made no thread."""
    words = ["threads", TEST]
    for number in range(1, MOST):
        came, was_refused = odd.run(words, "allocate", number)
        if not was_refused:
            odd.runs.hold(KINDS[3], odd.runs.is_answer_of_threads(words, came), brief(came), words)
            return
        odd.runs.hold(KINDS[2], came == NO_MEMORY, brief(came), words, note=f"from the threads' allocation {number} on")
    odd.runs.hold(KINDS[3], False, f"{MOST} allocations", words)


def part(runs):
    library = running.preloaded(runs.folder, "odd", ODD)
    if library is None:
        runs.hold(KINDS[0], False, "cc can't compile what answers oddly", [])
        return
    odd = Odd(runs, library)
    writes(odd)
    reads(odd)
    threads(odd)
    runs.counts("calls that answer oddly", KINDS)
