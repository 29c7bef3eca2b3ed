"""How ./ztso chooses and builds the program of a fresh checkout, where a script stands for cargo: it notes which profile it is
asked for, waits while that is held, and fails where that is broken."""

import os
import shutil
import signal
import time
from concurrent.futures import ThreadPoolExecutor
from pathlib import Path
from tempfile import TemporaryDirectory

import tree

from . import SECONDS, call

CARGO = """#!/bin/sh
if [ "$1" = --version ]; then
    echo 'cargo 1.85.0'
    exit
fi
profile=$3
echo "$profile" >>"$PLACE/built"
while [ -e "$PLACE/held-$profile" ]; do
    sleep 0.05
done
if [ -e "$PLACE/broken-$profile" ]; then
    echo 'error: no room'
    exit 1
fi
mkdir -p "$CARGO_TARGET_DIR/$profile"
printf '#!/bin/sh\\necho %s "$@"\\n' "$profile" >"$CARGO_TARGET_DIR/$profile/ztso"
chmod +x "$CARGO_TARGET_DIR/$profile/ztso"
"""
BUILDING = "ztso: building with rustc, without proofs"
FIRST = f"{BUILDING} and first without optimization: seven seconds on 4 processors\n"
WHOLE = f"{BUILDING}: ten to twenty seconds on 4 processors\n"
UNPROVED = "ztso: built by rustc, and nothing is proved of it; ./prove builds the proved program\n"
NOT_YET = "ztso: not optimized yet: the fast program is built in the background, and ./ztso --wait waits for it\n"


class Fresh:
    """A checkout in which nothing was built."""

    def __init__(self, folder):
        self.folder, self.out = folder, folder / "stock/out"
        for name in ("scripts", "stock/translator", "crates/one/src", "commands"):
            (folder / name).mkdir(parents=True)
        for name in ("ztso", "scripts/program", "scripts/at-terminal", "scripts/words.awk", "stock/build"):
            shutil.copy(tree.TOP / name, folder / name)
        (folder / "docs").symlink_to(tree.TOP / "docs")
        self.script("scripts/build", "#!/bin/sh\nexit 1\n")
        self.script("commands/cargo", CARGO)
        (folder / "stock/translator/__main__.py").write_text("import sys, pathlib\npathlib.Path(sys.argv[1], 'workspace').mkdir(exist_ok=True)\n")
        for name in ("crates.txt", "crates/one/src/lib.rt"):
            (folder / name).write_text("one:\n")

    def script(self, name, text):
        (self.folder / name).write_text(text)
        (self.folder / name).chmod(0o755)

    def call(self, name, *words):
        return call(self.folder / name, *words, variables={
            "PATH": f"{self.folder}/commands:{os.environ['PATH']}", "PLACE": str(self.folder)})

    def mark(self, name):
        (self.folder / name).touch()

    def free(self, name):
        (self.folder / name).unlink()

    def built(self):
        """The profiles that cargo was asked for."""
        return (self.folder / "built").read_text().split()

    def builders(self):
        """The processes that build here."""
        mine = []
        for path in Path("/proc").glob("[0-9]*/cmdline"):
            try:
                if str(self.folder).encode() in path.read_bytes():
                    mine.append(int(path.parent.name))
            except OSError:
                pass  # it has ended
        return mine

    def until(self, is_so):
        """Waits for that, and answers whether it came."""
        end = time.monotonic() + SECONDS
        while not is_so() and time.monotonic() < end:
            time.sleep(0.05)
        return is_so()


def part(count, _):
    for trial in (unoptimized_first, several_at_once, a_build_that_ends, a_broken_one, sources_that_do_not_compile, for_tools):
        with TemporaryDirectory(prefix="ztso-trial-") as folder:
            trial(count, Fresh(Path(folder).resolve()))


def unoptimized_first(count, here):
    """Two calls while the fast program is built, once, and then one that waits for it."""
    here.mark("held-release")
    count.same("the first call builds what is quick to build", here.call("ztso", "asm"), (0, "unoptimized asm\n", FIRST + UNPROVED + NOT_YET))
    count.told("the fast program is then built", here.until(lambda: here.built() == ["unoptimized", "release"]), here.built())
    count.same("the second call builds nothing", here.call("ztso", "asm"), (0, "unoptimized asm\n", UNPROVED + NOT_YET))
    kind = "built by rustc without optimization, until stock/out/ztso is built; nothing is proved of it"
    count.same("and --which names that program", here.call("ztso", "--which"),
               (0, f"{here.out}/ztso-unoptimized: {kind}\n", UNPROVED + NOT_YET))
    here.free("held-release")
    status, said, told = here.call("ztso", "--wait", "asm")
    count.same("--wait runs the fast program", (status, said, told.removeprefix(WHOLE)), (0, "release asm\n", UNPROVED))
    count.same("which was built once", here.built(), ["unoptimized", "release"])
    count.told("nothing is left running", here.until(lambda: not here.builders()), here.builders())
    count.same("the fast program is the one from then on", here.call("ztso", "asm"), (0, "release asm\n", UNPROVED))


def several_at_once(count, here):
    """Calls that begin together make each program once."""
    with ThreadPoolExecutor() as pool:
        came = list(pool.map(lambda _: here.call("ztso", "asm")[:2], range(4)))
    count.told("calls that begin together answer", all(status == 0 and said.split()[1] == "asm" for status, said in came), came)
    here.call("ztso", "--wait")
    count.same("and build each program once", here.built(), ["unoptimized", "release"])


def a_build_that_ends(count, here):
    """A build in the background that is ended leaves no program, and the next call begins another."""
    here.mark("held-release")
    here.call("ztso", "asm")
    here.until(lambda: "release" in here.built())
    for number in here.builders():
        os.kill(number, signal.SIGKILL)
    here.free("held-release")
    here.until(lambda: not here.builders())
    count.told("a build that was ended leaves no program", not (here.out / "ztso").exists())
    here.call("ztso", "asm")
    count.told("and the next call begins another", here.until((here.out / "ztso").exists))


def a_broken_one(count, here):
    """A build in the background that fails is reported, and not begun again by itself."""
    here.mark("broken-release")
    here.call("ztso", "asm")
    log = here.out / "behind.log"
    # Where the machine is busy, the build may not have begun when the call ends.
    here.until(lambda: log.exists() and log.read_text() and not here.builders())
    said = f"stock/build: the optimized program was not built: {log} says why, and stock/build tries again\n"
    count.same("a broken build is reported", here.call("ztso", "asm"), (0, "unoptimized asm\n", said + UNPROVED))
    count.told("by what rustc said", log.read_text().startswith("error: no room\n"), log.read_text())
    status, _, told = here.call("ztso", "--wait", "asm")
    count.told("--wait fails for it", status == 70 and told.startswith(f"{WHOLE}error: no room\n"), told)
    here.free("broken-release")
    count.same("stock/build tries again", here.call("stock/build"), (0, "", ""))
    count.same("and its program runs then", here.call("ztso", "asm"), (0, "release asm\n", UNPROVED))


def sources_that_do_not_compile(count, here):
    here.mark("broken-unoptimized")
    status, said, told = here.call("ztso", "asm")
    count.told("sources that don't compile are reported", status == 70 and not said and told.startswith(f"{FIRST}error: no room\n"), told)


def for_tools(count, here):
    """Tests and tools get the fast program, and wait for it."""
    count.same("tests wait for the fast program", here.call("scripts/program", "--quiet"), (0, f"{here.out}/ztso\n", WHOLE))
    count.same("and build no other", here.built(), ["release"])
