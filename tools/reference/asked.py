"""The words of explore and of axioms: each reads one litmus text, and its help is the text at its top."""

import argparse
from pathlib import Path

import litmus
from faults import Fault


def words(text):
    """A command line with the word FILE, where more words may be added."""
    usage = [line for line in text.splitlines() if line.startswith("tools/")]
    options = argparse.ArgumentParser(usage="\n       ".join(usage))
    options.format_help = lambda: text.strip() + "\n"
    options.add_argument("file", type=Path)
    return options


def capacity(word):
    """How many stores a buffer holds."""
    if not word.isdecimal() or not 1 <= int(word[:9]) <= 16:
        raise argparse.ArgumentTypeError(f"{word[:20]} is no capacity from 1 to 16")
    return int(word)


def test_of(options, path):
    """The test of a litmus text. One that can't be read, or is refused, ends the tool with a line."""
    try:
        return litmus.read(path.read_bytes().decode())
    except OSError as error:
        options.error(f"{path}: {error.strerror}")
    except UnicodeDecodeError:
        options.error(f"{path}: it is no UTF-8")
    except Fault as fault:
        options.error(f"{path}: {fault.line.removeprefix('ztso: ')}")
