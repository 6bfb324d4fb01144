"""Puts the folders whose modules the fuzzer uses on the path of modules: this one, tools, tests and tests/models.

Each module of the fuzzer that uses one of them imports this one before. Python 3.9 or later and its standard library.
"""

from __future__ import annotations

import sys

from measuring import TOP

for folder in ("tools", "tests", "tests/models"):
    if f"{TOP}/{folder}" not in sys.path:
        sys.path.append(f"{TOP}/{folder}")
