"""Whether each wrong body still applies: whether its old text occurs exactly once in the file that it names.

A file `NAME.edit` in `crates/CRATE/must-fail` or `wrong_bodies/CRATE` has a line `file: PATH`, below the crate, and then pairs of lines
`old: TEXT` and `new: TEXT`; each pair applies to what the earlier ones made.
"""

from __future__ import annotations

import glob
import os
from typing import Dict, List, Optional, Tuple

from harness import Tally


Change = Tuple[str, str, str]


def changes_of(path: str) -> List[Change]:
    """The changes of an edit: the file, its old text and its new one."""
    file, old, found = "", "", []
    with open(path, encoding="utf-8") as lines:
        for line in lines.read().splitlines():
            kind, _, text = line.partition(":")
            text = text[1:] if text.startswith(" ") else text
            if kind == "file":
                file = text
            elif kind == "old":
                old = text
            elif kind == "new":
                found.append((file, old, text))
    return found


def why_not(crate: str, path: str) -> Optional[str]:
    """Why an edit doesn't apply to a crate's folder, if it doesn't."""
    texts: Dict[str, str] = {}
    changes = changes_of(path)
    for file, old, new in changes:
        if file not in texts:
            if not os.path.isfile(f"{crate}/{file}"):
                return f"there is no file {file}"
            with open(f"{crate}/{file}", encoding="utf-8") as code:
                texts[file] = code.read()
        if not old or texts[file].count(old) != 1:
            return f"`{old}` occurs {texts[file].count(old)} times in {file}"
        texts[file] = texts[file].replace(old, new)
    return None if changes else "it changes nothing"


def check(top: str) -> Tally:
    tally = Tally()
    for path in sorted(glob.glob(f"{top}/crates/*/must-fail/*.edit") + glob.glob(f"{top}/wrong_bodies/*/*.edit")):
        crate = os.path.basename(os.path.dirname(path.replace("/must-fail/", "/")))
        why = why_not(f"{top}/crates/{crate}", path)
        tally.check("a wrong body applies", why is None, f"{os.path.relpath(path, top)}: {why}")
    return tally
