"""What the second implementation, tools/reference/ztso, answers, without a process for each question."""

import importlib.machinery
import importlib.util
import sys
from pathlib import Path

REFERENCE = Path(__file__).resolve().parent.parent / "tools/reference"
sys.path.insert(0, str(REFERENCE))

import faults  # noqa: E402


def loaded():
    """Its commands."""
    loader = importlib.machinery.SourceFileLoader("ztso_reference", str(REFERENCE / "ztso"))
    module = importlib.util.module_from_spec(importlib.util.spec_from_loader(loader.name, loader))
    loader.exec_module(module)
    return module


COMMANDS = loaded()


def answer(words):
    """Its status, standard output and standard error."""
    try:
        command, files, options = COMMANDS.job(words)
        text, status = COMMANDS.ENGINES[command](files, options)
        return status, text, ""
    except faults.Fault as fault:
        return fault.status, "", f"{fault.line}\n"
