"""The JSON of a description, read strictly: each value knows its file and its place in it, as `accounts[2].balance`,
and what is wrong with it is a FileFault that names both.

A description is UTF-8 text. A field that isn't known, one that is missing and one that is there twice are refused.
Unproved.
"""

from __future__ import annotations

import json
from typing import Any, Callable, Dict, List, Sequence, TypeVar

from file_source import FileFault

Read = TypeVar("Read")


class Pairs(tuple):
    """The fields of a JSON object, each a name and a value, in their order; a name may be there twice."""


def quoted(value: Any) -> str:
    """A value in one line, as JSON has it; a long one without its end."""
    text = json.dumps(value)
    return text if len(text) <= 60 else f"{text[:57]}.."


class Node:
    """A value of a description, and its place, which is "" for the whole."""

    def __init__(self, file: str, place: str, value: Any) -> None:
        self.file, self.place, self.value = file, place, value

    def fault(self, what: str) -> FileFault:
        return FileFault(self.file, f"{self.place}: {what}" if self.place else what)

    def inner(self, name: str, value: Any) -> Node:
        """A field of this value, by its name."""
        return Node(self.file, f"{self.place}.{name}" if self.place else name, value)

    def fault_at(self, name: str, what: str) -> FileFault:
        """What is wrong with a field of this value."""
        return self.inner(name, None).fault(what)

    def fields(self, required: Sequence[str], optional: Sequence[str] = ()) -> Fields:
        """The fields of an object, of which all `required` ones are there. Raises FileFault."""
        if not isinstance(self.value, Pairs):
            raise self.fault(f"{self.kind} in place of an object {{..}}")
        found = Fields()
        for name, value in self.value:
            node = self.inner(name if name.isidentifier() else quoted(name), value)
            if name not in required and name not in optional:
                raise node.fault(f"no such field; the fields are {', '.join([*required, *optional])}")
            if name in found:
                raise node.fault("the field is there twice")
            found[name] = node
        for name in required:
            if name not in found:
                raise self.fault(f"the field {name} is missing")
        return found

    def field(self, name: str) -> Node:
        """One field of an object, before it is known which others there may be. Raises FileFault."""
        if not isinstance(self.value, Pairs):
            raise self.fault(f"{self.kind} in place of an object {{..}}")
        for found, value in self.value:
            if found == name:
                return self.inner(name, value)
        raise self.fault(f"the field {name} is missing")

    def items(self, most: int = 2**31) -> List[Node]:
        """The items of a list, at most so many. Raises FileFault."""
        if not isinstance(self.value, list):
            raise self.fault(f"{self.kind} in place of a list [..]")
        if len(self.value) > most:
            raise self.fault(f"{len(self.value)} items, above {most}")
        return [Node(self.file, f"{self.place}[{index}]", item) for index, item in enumerate(self.value)]

    def text(self) -> str:
        """A text. Raises FileFault."""
        if not isinstance(self.value, str):
            raise self.fault(f"{self.kind} in place of a text")
        return self.value

    def whole(self, least: int, most: int) -> int:
        """A whole number between bounds. Raises FileFault."""
        if isinstance(self.value, bool) or not isinstance(self.value, int):
            raise self.fault(f"{self.kind} in place of a whole number")
        if not least <= self.value <= most:
            raise self.fault(f"{quoted(self.value)} isn't from {least} to {most}")
        return self.value

    @property
    def kind(self) -> str:
        """What the value is, in words."""
        if isinstance(self.value, Pairs):
            return "an object"
        if isinstance(self.value, list):
            return "a list"
        return f"the text {quoted(self.value)}" if isinstance(self.value, str) else quoted(self.value)


class Fields(Dict[str, Node]):
    """The fields of an object that are there."""

    def read(self, name: str, how: Callable[[Node], Read], default: Read) -> Read:
        """What a field says, or what counts where it isn't there."""
        return how(self[name]) if name in self else default


def read_description(path: str) -> Node:
    """The JSON of a file. Raises FileFault where it isn't JSON, and OSError where it can't be read."""
    with open(path, "rb") as file:
        data = file.read()
    try:
        return Node(path, "", json.loads(data.decode("utf-8"), object_pairs_hook=Pairs))
    except json.JSONDecodeError as why:
        raise FileFault(path, f"line {why.lineno}, column {why.colno}: no JSON: {why.msg}") from None
    except UnicodeDecodeError as why:
        raise FileFault(path, "the text isn't UTF-8", why.start) from None
    except RecursionError:
        raise FileFault(path, "values inside of values, too many levels of them") from None
    except ValueError as why:
        raise FileFault(path, f"no JSON: {why}") from None
