"""Tests of what the bench makes."""
import sys

import tool

sys.path.insert(0, str(tool.TOOLS.parent / "bench"))
