"""Tests of the library for C and for Python, as `make library` builds it."""
import os
import sys

import tool

MADE = tool.TOOLS.parent / "out" / "library"
SHARED = MADE / "libdnssec_check.so.1"
LIBRARY = tool.TOOLS.parent / "library"
sys.path.insert(0, str(LIBRARY / "python"))
os.environ.setdefault("DNSSEC_CHECK_LIBRARY", str(SHARED))
