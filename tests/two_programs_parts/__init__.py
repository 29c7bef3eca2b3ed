"""Asking both programs of tests/two-programs the same in one folder, and where their answers differ. Its parts stand on the examples of tests/hostile
and the changes of tools/reference."""

import os
import signal
import sys
from pathlib import Path
from typing import NamedTuple

ROOT = Path(__file__).resolve().parent.parent.parent
for part in ("cases", "tools/reference", "tests"):
    sys.path.insert(0, str(ROOT / part))

SECONDS = 30
READ, WRITE = os.O_RDONLY, os.O_WRONLY | os.O_CREAT | os.O_TRUNC


class Question(NamedTuple):
    """What a program is asked: the kind of question, the words, standard input, and files of the folder."""

    kind: str
    words: list
    stdin: bytes = b""
    files: dict = {}


class Answer(NamedTuple):
    status: int
    fault: bytes
    text: bytes


class NoEnd(Exception):
    pass


def alarm(*_):
    raise NoEnd


class Folder:
    """A folder in which programs run. It is the process's own from now on."""

    def __init__(self, path, shared):
        os.chdir(path)
        signal.signal(signal.SIGALRM, alarm)
        for folder in shared:
            Path(folder.name).symlink_to(folder)

    def ask(self, program, question):
        """A program's answer, or -1 as its status where it doesn't end."""
        for name, content in {**question.files, "stdin": question.stdin}.items():
            Path(name).write_bytes(content)
        actions = [(os.POSIX_SPAWN_OPEN, 0, "stdin", READ, 0), (os.POSIX_SPAWN_OPEN, 1, "stdout", WRITE, 0o600),
                   (os.POSIX_SPAWN_OPEN, 2, "stderr", WRITE, 0o600)]
        child = os.posix_spawn(program, [program, *map(os.fsencode, question.words)], os.environ, file_actions=actions)
        signal.alarm(SECONDS)
        try:
            _, ended = os.waitpid(child, 0)
            status = os.waitstatus_to_exitcode(ended)
        except NoEnd:
            os.kill(child, signal.SIGKILL)
            os.waitpid(child, 0)
            status = -1
        finally:
            signal.alarm(0)
        return Answer(status, Path("stderr").read_bytes(), Path("stdout").read_bytes())


def differences(folder, one, other, question):
    """The questions on which the programs differ, each with both answers: this one, or what it leads to."""
    if question.words[:1] == ["threads"]:
        return [*of_threads(folder, one, other, question), *of_threads(folder, other, one, question)]
    answers = folder.ask(one, question), folder.ask(other, question)
    return [(question, *answers)] if answers[0] != answers[1] or answers[0].status == -1 else []


def of_threads(folder, one, other, question):
    """Threads do another run each time: `run` of the other program must say the same of the schedule that this one
    printed. What it refuses the other must refuse too."""
    came = folder.ask(one, question)
    head, found, rest = came.text.partition(b"hart 0 ")
    if not found:
        wanted = folder.ask(other, question)
        return [(question, came, wanted)] if came != wanted else []
    words = question.words
    buffer = words[words.index("--buffer"):][:2] if "--buffer" in words else []
    again = Question("threads, run again", ["run", words[1], "of-threads", *buffer], b"",
                     {**question.files, "of-threads": head})
    wanted, came = folder.ask(other, again), came._replace(text=found + rest)
    return [(again, came, wanted)] if came != wanted else []
