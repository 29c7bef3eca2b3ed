"""A file's flags by compile_commands.json, as CMake, Meson and Bear write it."""

import json
import os
import re
import shlex
from pathlib import Path

from bring_parts import Refused, text_of

# the file of a large project
MOST = 256 << 20
# options whose value is a file or a folder, joined or in the next word, and those with another one
WITH_PATH, WITH_WORD = ("-isystem", "-iquote", "-include", "-I"), ("-D", "-U")
ALONE = re.compile(r"-O[0-9sgz]?|-Ofast|-std=.+|-f[a-z].*")
# options that need what isn't there, a library or another linker, or that change no code
LEFT_OUT = re.compile(r"-f(?:lto|sanitize|profile|stack-|instrument|coverage|pic|pie|plugin|diagnostics|color|debug|macro-prefix|file-prefix).*")


def entries_of(path):
    """The entries of the file."""
    try:
        entries = json.loads(text_of(path, MOST))
        if all(isinstance(each["file"], str) and isinstance(each["directory"], str) for each in entries):
            return entries
    except (ValueError, TypeError, KeyError):
        pass
    raise Refused(f"{path}: it is no compile_commands.json: a list of objects with file, directory, and command or arguments")


def words_of(path, entry):
    """The words of an entry's command."""
    words = entry.get("arguments")
    try:
        words = shlex.split(entry["command"]) if words is None else words
        if isinstance(words, list) and all(isinstance(word, str) for word in words):
            return words
    except (ValueError, KeyError, AttributeError):
        pass
    raise Refused(f"{path}: the entry of {entry['file']} has neither arguments nor a command that a shell reads")


def taken(words, folder):
    """Those of a command's options that say what code a file is: what it includes, names, and how far it is optimized."""
    words = iter(words)
    for word in words:
        name = next((each for each in (*WITH_PATH, *WITH_WORD) if word.startswith(each)), None)
        if name:
            value = word.removeprefix(name) or next(words, "")
            # a header's name alone is looked for as by `#include`
            is_path = name in WITH_PATH and (name != "-include" or Path(folder, value).exists())
            value = os.path.normpath(Path(folder, value)) if is_path else value
            yield from [name, value] if name == "-include" else [name + value]
        elif ALONE.fullmatch(word) and not LEFT_OUT.fullmatch(word):
            yield word


def flags(path, files):
    """The flags of these files, which all that the list has must share."""
    entries = entries_of(path)
    at = {Path(each["directory"], each["file"]).resolve(): each for each in reversed(entries)}
    found = {file: [*taken(words_of(path, entry), entry["directory"])] for file in files if (entry := at.get(Path(file).resolve()))}
    if not found:
        raise Refused(f"{path}: it has no entry of {', '.join(map(str, files))}: give its flags by --flag")
    first, *others = found
    for other in others:
        if found[other] != found[first]:
            raise Refused(f"{path}: {first} and {other} have other flags each: compile them to objects, and ask of these")
    return found[first]
