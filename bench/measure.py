"""What the benchmarks share: the program's processor time and peak memory on an input."""

import resource
import subprocess
import sys
import tempfile
from pathlib import Path

ROOT = Path(__file__).resolve().parent.parent
# what ./ztso runs: the proved program if that is current, else the one by rustc, which is_ready makes
IS_PROVED = subprocess.run([ROOT / "scripts/build", "--is-current"], stdin=subprocess.DEVNULL, capture_output=True, check=False).returncode == 0
PROGRAM = ROOT / ("crates/ztso/out/ztso" if IS_PROVED else "stock/out/ztso")
# the largest input that is read
INPUT_BYTES = 1_048_576
SIZES = (INPUT_BYTES // 16, INPUT_BYTES // 4, INPUT_BYTES)


def is_ready():
    """Whether the program is there, which is said, and what measures peak memory: of Debian's package `time`."""
    made = subprocess.run([ROOT / "scripts/program"], stdin=subprocess.DEVNULL, stdout=subprocess.PIPE, text=True, check=False)
    if made.returncode or Path(made.stdout.strip()) != PROGRAM:
        return False
    print(f"{Path(sys.argv[0]).name}: measures {PROGRAM.relative_to(ROOT)}", file=sys.stderr)
    if not Path("/usr/bin/time").exists():
        print(f"{Path(sys.argv[0]).name}: no /usr/bin/time", file=sys.stderr)
        return False
    return True


def processor_seconds():
    used = resource.getrusage(resource.RUSAGE_CHILDREN)
    return used.ru_utime + used.ru_stime


def cost_of(command, text="", runs=7, statuses=(0,)):
    """What a command writes for this standard input, the processor seconds of the fastest of some runs,
    and the peak bytes of one."""
    with tempfile.NamedTemporaryFile("w") as file, tempfile.NamedTemporaryFile("r") as peak:
        file.write(text)
        file.flush()

        def run(*front):
            with open(file.name, "rb") as stdin:
                before = processor_seconds()
                done = subprocess.run([*front, *command], stdin=stdin, stdout=subprocess.PIPE,
                                      stderr=subprocess.DEVNULL)
                seconds = processor_seconds() - before
            if done.returncode not in statuses:
                sys.exit(f"{command}: status {done.returncode}")
            return done.stdout, seconds

        run("/usr/bin/time", "-o", peak.name, "-f", "%M")
        times = [run() for _ in range(runs)]
        return times[0][0], min(seconds for _, seconds in times), int(peak.read().split()[-1]) * 1024


def ratio(now, before):
    return f"{now / before:.2f}" if before and before > 0 else "-"


def print_growth(title, rows, base):
    """A row for each size in bytes with its processor seconds and peak bytes. The last columns are time
    and memory over those of the row before; speed, memory a byte and the ratios leave out the base,
    which is the cost of no text."""
    print(f"{title:26} {'ms':>8} {'MiB/s':>8} {'peak KiB':>9} {'memory/byte':>11} {'time':>6} {'memory':>6}")
    before = None, None
    for size, seconds, peak in rows:
        net = seconds - base[0], peak - base[1]
        speed = f"{size / 2**20 / net[0]:8.1f}" if net[0] > 0 else f"{'-':>8}"
        print(f"{f'{size} bytes':26} {seconds * 1000:8.1f} {speed} {peak // 1024:9} "
              f"{net[1] / size:11.1f} {ratio(net[0], before[0]):>6} {ratio(net[1], before[1]):>6}")
        before = net
    print()
