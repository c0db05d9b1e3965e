"""Puts tests/ on the path of imports when it is imported, so that tools can import the packages lib and suites."""
from __future__ import annotations

import pathlib
import sys

sys.path.insert(0, str(pathlib.Path(__file__).resolve().parent.parent / "tests"))
