"""The parts of examples/core/check, which stand on tools/core-log-to-record, on the reference's readers and on the
shelf's."""

import sys
from pathlib import Path

HERE = Path(__file__).resolve().parent.parent
ROOT = HERE.parent.parent
sys.path[:0] = [*(str(ROOT / name) for name in ("tools", "tests", "cases", "tools/reference"))]


class Wrong(Exception):
    """It can't go on; the text says what to do."""
