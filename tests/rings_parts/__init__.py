"""The parts of tests/rings, which read with the reference and with the cases' kit."""

import sys
from pathlib import Path

ROOT = Path(__file__).resolve().parent.parent.parent
sys.path[:0] = [str(ROOT / "tools/reference"), str(ROOT / "cases")]
