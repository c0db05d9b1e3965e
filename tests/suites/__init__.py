"""The suites of tests, by name."""
from __future__ import annotations

# Those that run by default, in this order: short ones that find most first, and those that build trees last.
DEFAULT = ("rows", "builds", "chain", "images", "compiled", "machine", "orders", "interrupted", "failing",
           "cut_depfiles", "console", "live", "together", "stopped", "spoilt", "closed", "limited", "frontend",
           "outputs", "progress", "missing", "reasons", "rightness", "generated", "foreign", "builddir",
           "dependencies", "ahead", "tools", "ninja", "memory", "twice", "packages", "real", "building")
# Those that need the kit, or take long.
OTHERS = ("calls", "depfiles", "using")
NAMES = (*DEFAULT, *OTHERS)
