"""Builds the test bench by Verilator, as it stands or with a fault, and runs it."""

import os
import re
import shutil
import subprocess
from pathlib import Path

from sections import sections

from . import HERE, ROOT, Wrong

# in the order in which they name each other
SOURCES = [f"{name}.sv" for name in
           ("types", "chance", "decode", "alu", "store_buffer", "hart", "memory", "core_log", "rvfi", "bench")]
# what is built with the harts' RVFI in a trace, and nothing else
TRACED, TRACING = "traced", ("--trace", "-DRVFI_TRACE")
PACKAGES = ("verilator", "g++", "make")
# in a checkout beside the sources; elsewhere these belong to an installation
CACHE = Path(os.environ.get("XDG_CACHE_HOME") or Path.home() / ".cache")
OUT = HERE / "out" if (ROOT / "scripts/program").exists() else CACHE / "ztso-core"
PLAIN = "plain"


def install():
    """Installs what the build needs."""
    try:
        for words in (["update"], ["install", "--yes", "--no-install-recommends", *PACKAGES]):
            subprocess.run(["apt-get", *words], check=True, stdout=subprocess.DEVNULL)
    except (OSError, subprocess.CalledProcessError) as error:
        raise Wrong(f"{' '.join(PACKAGES)} can't be installed: {error}") from error


def faults():
    """The planted faults: the edits of each, by its name."""
    return dict(sections((HERE / "faults.edits").read_text()))


def edited(sources, fault):
    """The sources, by name, after the edits of a fault."""
    sources = dict(sources)
    for part in re.split("^file: ", faults()[fault], flags=re.MULTILINE)[1:]:
        name, _, changes = part.partition("\n")
        for old, new in re.findall("^old: (.*)\nnew: (.*)$", changes, re.MULTILINE):
            if sources[name].count(old) != 1:
                raise Wrong(f"{fault}: `{old}` doesn't stand exactly once in {name}")
            sources[name] = sources[name].replace(old, new)
    return sources


def built(fault=None, is_traced=False):
    """The bench, built anew where a source has changed since; with a fault where one is named, and with
    `+trace` where that is asked for."""
    if shutil.which("verilator") is None:
        raise Wrong("no verilator: --install gets it by apt-get")
    name = fault or (TRACED if is_traced else PLAIN)
    folder = OUT / name
    texts = {source: (HERE / "rtl" / source).read_text() for source in SOURCES}
    if fault:
        texts = edited(texts, fault)
    bench = folder / "bench"
    if bench.exists() and all((folder / "rtl" / source).exists() and (folder / "rtl" / source).read_text() == text
                              for source, text in texts.items()):
        return bench
    shutil.rmtree(folder, ignore_errors=True)
    if fault and (OUT / PLAIN).exists():
        # the runtime of Verilator is compiled there already
        shutil.copytree(OUT / PLAIN, folder)
        bench.unlink(missing_ok=True)
    (folder / "rtl").mkdir(parents=True, exist_ok=True)
    for source, text in texts.items():
        (folder / "rtl" / source).write_text(text)
    further = []
    if is_traced:
        (folder / "trace.vlt").write_text("\n".join(["`verilator_config", *(f'tracing_off --file "*/{source}"' for source in
                                                    SOURCES if source not in ("rvfi.sv", "bench.sv"))]) + "\n")
        further = [*TRACING, str(folder / "trace.vlt")]
    words = ["verilator", *further, "--binary", "-O3", "--x-assign", "0", "--x-initial", "0", "--top-module", "bench", "-Mdir",
             str(folder), "-o", "bench", *(str(folder / "rtl" / source) for source in SOURCES)]
    with open(folder / "build.log", "w") as log:
        status = subprocess.run(words, stdout=log, stderr=log, check=False).returncode
    if status:
        raise Wrong(f"verilator builds no bench: see {folder / 'build.log'}")
    return bench


def log_of(bench, steps, seed, runs, *further):
    """The lines of the log of a test's runs, where the file `steps` has the test's opening, by further words or none."""
    try:
        done = subprocess.run([bench, f"+test={steps}", f"+seed={seed}", f"+runs={runs}", *further], stdin=subprocess.DEVNULL,
                              capture_output=True, text=True, check=False)
    except OSError as error:
        raise Wrong(f"{bench}: {error.strerror}") from error
    if done.returncode:
        raise Wrong(f"{bench} fails on {steps}: {done.stderr.strip() or done.stdout.strip()[-200:]}")
    return done.stdout.splitlines()
