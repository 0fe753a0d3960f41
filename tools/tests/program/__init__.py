"""Tests of the built program with files that are too many or too large to be kept. Their messages are made as those of
rows are."""
import sys

import tool

sys.path.insert(0, str(tool.TOOLS / "rows"))
