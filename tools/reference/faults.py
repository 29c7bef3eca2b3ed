"""What ends a command without an answer: the line for standard error, and the exit status."""

import os
import signal
import sys

HEADER, INIT, TABLE, INSTRUCTION, CONDITION, MANY = 21, 22, 23, 24, 25, 26
HEAD, TOKEN, HART, COUNT, TRUNCATED = 27, 28, 29, 30, 31
NO_TEXT, TOO_LARGE, DIFFERS, OUTCOME, NOT_FINISHED = 36, 37, 38, 39, 40


class Fault(Exception):
    def __init__(self, line, status):
        super().__init__(line)
        self.line = line
        self.status = status


def refused(number, place=""):
    return Fault(f"ztso: refused {number}{place}", 2)


def at_line(number, line):
    return refused(number, f" at line {line}")


def at_byte(number, byte):
    return refused(number, f" at byte {byte}")


def at_event(number, event):
    return refused(number, f" at event {event}")


def bad_command_line():
    return Fault("ztso: bad command line", 2)


def all_seen(states):
    return Fault(f"ztso: all {states} states seen, none shows it", 1)


def cut(states):
    return Fault(f"ztso: cut at {states} states", 5)


def read_failed():
    return Fault("ztso: read failed", 3)


def ended(main):
    """The exit status of a command's main. A reader of its output that leaves is no fault, and whoever stops it is told in a line."""
    try:
        try:
            return main()
        finally:
            sys.stdout.flush()
    except BrokenPipeError:
        os.dup2(os.open(os.devnull, os.O_WRONLY), sys.stdout.fileno())
        return 128 + signal.SIGPIPE
    except KeyboardInterrupt:
        print(f"\r{os.path.basename(sys.argv[0])}: stopped", file=sys.stderr)
        return 128 + signal.SIGINT
