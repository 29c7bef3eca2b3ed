"""Runs the program on a case, whole or with its allocations refused in turn."""

import os
import re
import subprocess
import tempfile
from pathlib import Path

from . import form, terminal, typing_in
from .links import ROOT

SECONDS = 60
# what stands for a number in a text that is wiped: any, or one within bounds
NUMBER = re.compile(rb"<number(?: from ([0-9]+))?(?: to ([0-9]+))?>")
# status, standard error and standard output where memory ran out
NO_MEMORY = (4, b"ztso: no memory\n", b"")
# the most allocations that a case may make
ALLOCATIONS = 10_000

# Put before the C library, it refuses one call that allocates, counted from 1, or that one and all later
# ones where REFUSED_LATER is 1, and leaves a file where it came to that call.
REFUSER = r"""
#define _GNU_SOURCE
#include <dlfcn.h>
#include <errno.h>
#include <fcntl.h>
#include <stdlib.h>
#include <unistd.h>

static long left = -1;

static int is_refused(void) {
    static int later;
    if (left < 0) {
        const char *which = getenv("REFUSED_LATER");
        later = which && *which == '1';
        left = atol(getenv("REFUSED_ALLOCATION"));
    }
    if (left == 0 && !later) return 0;
    if (left > 0 && --left > 0) return 0;
    close(open(getenv("REFUSAL_SEEN"), O_WRONLY | O_CREAT, 0600));
    errno = ENOMEM;
    return 1;
}

void *malloc(size_t size) {
    static void *(*next)(size_t);
    if (!next) next = (void *(*)(size_t))dlsym(RTLD_NEXT, "malloc");
    return is_refused() ? NULL : next(size);
}

void *realloc(void *block, size_t size) {
    static void *(*next)(void *, size_t);
    if (!next) next = (void *(*)(void *, size_t))dlsym(RTLD_NEXT, "realloc");
    return is_refused() ? NULL : next(block, size);
}
"""


class Wrong(Exception):
    """A case that can't be run, or that doesn't end."""


def refuser_in(folder):
    """Compiles the refuser of allocations, and answers its path, or None where there is no compiler."""
    return preloaded(folder, "refuser", REFUSER)


def preloaded(folder, name, text):
    """Compiles what is put before the C library, and answers its path, or None where there is no compiler."""
    source, library = Path(folder, f"{name}.c"), Path(folder, f"{name}.so")
    source.write_text(text)
    try:
        subprocess.run(["cc", "-shared", "-fPIC", "-o", library, source, "-ldl"], check=True,
                       stdout=subprocess.DEVNULL, stderr=subprocess.DEVNULL)
    except (OSError, subprocess.CalledProcessError):
        return None
    return library


def shell_front(case):
    """What the shell does before it becomes the program, or nothing where it needn't."""
    front = ""
    if case.memory is not None:
        if case.memory % 1024:
            raise Wrong("a limit of memory is a multiple of 1024 bytes")
        front += f"ulimit -v {case.memory // 1024} && "
    return front


def redirections(case):
    """The standard streams that are closed, as the shell writes it."""
    return "".join(f" {sign}&-" for stream, sign in ((case.stdin, "<"), (case.stdout, ">"))
                   if stream.device == "closed")


def command(program, case):
    """The words of the command, behind a shell where the case limits memory or closes a stream, or is a
    line for the shell."""
    if case.shell is not None:
        return ["/bin/bash", "-c", case.shell.replace("./ztso", '"$0"'), os.fsencode(program)]
    words = words_of(program, case)
    if not case.needs_shell():
        return words
    return ["/bin/sh", "-c", f'{shell_front(case)}exec "$0" "$@"{redirections(case)}', *words]


def words_of(program, case):
    """The words of the command line. Of a tool's, PROGRAM stands for the program."""
    if case.tool is None:
        return [os.fsencode(program), *case.words]
    return [os.fsencode(ROOT / case.tool), *(os.fsencode(program) if word == b"PROGRAM" else word for word in case.words)]


def device(stream, flags):
    """The open device that a stream is, or None. It may be a folder too."""
    return os.open(stream.device, flags) if stream.device not in (None, "closed") else None


def run(program, case, folder, variables=None):
    """The status, standard error and standard output of the program on a case, run in a new folder
    below `folder`."""
    try:
        with tempfile.TemporaryDirectory(dir=folder) as inside:
            return run_in(program, case, inside, variables)
    except subprocess.TimeoutExpired as error:
        raise Wrong(f"no end within {SECONDS} seconds") from error
    except (OSError, ValueError, subprocess.SubprocessError) as error:
        raise Wrong(str(error)) from error


def run_in(program, case, inside, variables):
    for name, content in case.folder_files().items():
        Path(inside, name).write_bytes(content)
    if case.typed:
        environment = {**os.environ, **variables} if variables else None
        status, errors, output = typing_in.run(case.typed, case.stdin.content(), command(program, case), inside, environment,
                                               SECONDS, case.wiped is not None)
        return status, errors if case.wiped is None else remaining(errors, case.wiped), output
    given, taken = device(case.stdin, os.O_RDONLY), device(case.stdout, os.O_WRONLY)
    options = {
        **({"stdin": subprocess.DEVNULL if given is None else given} if case.stdin.device
           else {"input": case.stdin.content()}),
        "stdout": subprocess.PIPE if taken is None else taken,
        "cwd": inside,
        "timeout": SECONDS,
        "env": {**os.environ, **variables} if variables else None,
    }
    try:
        if case.wiped is None:
            done = subprocess.run(command(program, case), stderr=subprocess.PIPE, **options)
            errors = done.stderr
        else:
            done, written = terminal.run(command(program, case), **options)
            # where an allocation is refused, what was written before may be less
            errors = terminal.shown(written)[0] if variables else remaining(written, case.wiped)
    finally:
        for opened in (given, taken):
            if opened is not None:
                os.close(opened)
    return done.returncode, errors, done.stdout or b""


def remaining(written, wiped):
    """What a terminal shows of what was written to it, where the texts that are gone are as wanted: the last one is the
    last of `wiped`, and the others are among those before it, in this order."""
    shown, gone = terminal.shown(written)
    if wiped == form.NOTHING and gone:
        raise Wrong(f"texts that were wiped at the terminal, where none should be: {gone}")
    if wiped == form.NOTHING:
        return shown
    if not (is_text(wiped[-1], gone[-1]) if wiped and gone else wiped == ()):
        raise Wrong(f"the last text that was wiped at the terminal: {gone[-1:]}, wanted {wiped[-1:]}")
    before = iter(gone[:-1])
    for text in wiped[:-1]:
        if not any(is_text(text, one) for one in before):
            raise Wrong(f"no text like {text} was wiped at the terminal before, of {gone}")
    return shown


def is_text(wanted, text):
    """Whether this is the wanted text, in which `<number>` may stand for numbers."""
    form, bounds, end = b"", [], 0
    for number in NUMBER.finditer(wanted):
        form += re.escape(wanted[end:number.start()]) + rb"([0-9]+)"
        bounds.append((int(number[1] or 0), int(number[2]) if number[2] else float("inf")))
        end = number.end()
    found = re.fullmatch(form + re.escape(wanted[end:]), text)
    return found is not None and all(least <= int(one) <= most for one, (least, most) in zip(found.groups(), bounds))


def without_memory(program, case, folder, refuser, first, step):
    """What is wrong with the program's answers where an allocation of the case is refused, alone or with all later
    ones: each is that there is no memory, or the case's own answer where the program can do without. The refused
    ones are the first-th and every step-th after it; None where all is as it should be."""
    if refuser is None:
        return "cc can't compile what refuses an allocation"
    seen = Path(folder, f"seen-{os.getpid()}")
    for number in range(first, ALLOCATIONS + 1, step):
        for later in "01":
            variables = {"LD_PRELOAD": str(refuser), "REFUSED_ALLOCATION": str(number), "REFUSED_LATER": later,
                         "REFUSAL_SEEN": str(seen)}
            answer = run(program, case, folder, variables)
            if not seen.exists():
                return None if number > 1 else "no allocation was refused"
            seen.unlink()
            if not is_answer_without_memory(case, answer):
                others = " and all later ones" if later == "1" else ""
                return f"with allocation {number}{others} refused: status {answer[0]}, {answer[1]}"
    return f"more than {ALLOCATIONS} allocations"


def is_answer_without_memory(case, answer):
    """Whether it is the case's own answer, or that there is no memory, which a command that writes as it reads says
    after what it has answered."""
    own = case.answer()
    if case.words[:1] in ([b"debug"], [b"check"]) and answer[:2] == NO_MEMORY[:2]:
        return own[2].startswith(answer[2])
    return answer in (NO_MEMORY, own)
