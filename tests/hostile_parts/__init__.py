"""The parts of tests/hostile, which stand on the cases' kit and on the reference."""

import sys
from pathlib import Path

ROOT = Path(__file__).resolve().parent.parent.parent
sys.path[:0] = [str(ROOT / "cases"), str(ROOT / "tools/reference")]
