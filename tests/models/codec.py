"""The codec of the tool for files (tools/stellar_xdr.py), for these models."""

from __future__ import annotations

import os
import sys

TOOLS = os.path.join(os.path.dirname(os.path.dirname(os.path.dirname(os.path.abspath(__file__)))), "tools")
if TOOLS not in sys.path:
    # before the folders of the tests, whose modules have other names
    sys.path.insert(0, TOOLS)

import stellar_xdr as xdr  # noqa: E402,F401
