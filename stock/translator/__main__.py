"""python3 -B stock/translator OUT: brings the workspace OUT/workspace up to date. stock/build calls it."""

import sys
from pathlib import Path

sys.dont_write_bytecode = True
sys.path.insert(0, str(Path(__file__).resolve().parent.parent))

from translator import workspace  # noqa: E402


def main():
    if len(sys.argv) != 2:
        sys.exit("usage: python3 -B stock/translator OUT")
    try:
        workspace.write(Path(sys.argv[1]).resolve())
    except workspace.Faults as faults:
        print(faults, file=sys.stderr)
        sys.exit("stock/translator: these lines are not as the translator knows them: write them as the other sources "
                 "do, or teach stock/translator/source.py and proofs.py what they mean")


main()
