"""XDR (RFC 4506) by types: how each kind of type is read and written, strictly, as docs/FORMATS.md says.

A type is an object. What reads and writes its values is made once, as closures, when it is first asked for; `read`,
`read_entire` and `write` below use it. Values are

- int, of a number;
- bytes, of opaque fields and texts;
- dict, of a struct: its fields in their order;
- dict, of a union: its discriminant by Stellar's name or number, and the arm's field where it has one, as
  `{"type": "PAYMENT", "paymentOp": {..}}`;
- list, of a list, and None, of an option that is absent.

Unproved, as all of this folder. Python 3.9 or later and its standard library.
"""

from __future__ import annotations

import struct
from functools import cached_property
from typing import Any, Callable, Dict, Mapping, Optional, Tuple, Union

Value = Any
# what is read from: bytes, or a file that is mapped
Data = Any
Reader = Callable[[Data, int], Tuple[Value, int]]
Writer = Callable[[Value, bytearray], None]

# the kinds of faults (docs/FORMATS.md, "Faults")
MEANINGS = {
    "Short": "the bytes end inside a field",
    "Padding": "a byte that fills up to a multiple of four isn't zero",
    "BadEnum": "a discriminant is none of the union's",
    "BadFlag": "a flag is neither 0 nor 1",
    "TooLong": "a number is above its bound",
    "BadMark": "a record mark has a clear top bit",
    "Trailing": "bytes are left over",
    "TooDeep": "a predicate has more than 32 levels",
}


class XdrFault(Exception):
    """Bytes that encode no value, or a value that is too long, too deep or of no such discriminant to be written.

    `kind` is a name of `MEANINGS`, `offset` that of the fault, in bytes from the start of what is read or written.
    """

    def __init__(self, kind: str, offset: int) -> None:
        super().__init__(kind, offset)
        self.kind, self.offset = kind, offset

    def __str__(self) -> str:
        return f"{self.kind}, {MEANINGS[self.kind]}"


class Type:
    """A type of values. Each kind of type makes its reader and its writer from its parts."""

    @cached_property
    def reader(self) -> Reader:
        """Reads the value at an offset; answers it and the offset after it. Raises XdrFault."""
        return self.make_reader()

    @cached_property
    def writer(self) -> Writer:
        """Adds the encoding of a value to some bytes. Raises XdrFault or ValueError; a part is added then."""
        return self.make_writer()

    def make_reader(self) -> Reader:
        raise NotImplementedError

    def make_writer(self) -> Writer:
        raise NotImplementedError


class Number(Type):
    """A whole number, by its letter of the module struct: I, i, Q or q."""

    def __init__(self, letter: str) -> None:
        self.packed = struct.Struct(f">{letter}")
        self.has_64_bits = self.packed.size == 8

    def make_reader(self) -> Reader:
        unpack, size, failure = self.packed.unpack_from, self.packed.size, struct.error

        def read_number(data: Data, offset: int) -> Tuple[Value, int]:
            try:
                return unpack(data, offset)[0], offset + size
            except failure:
                raise XdrFault("Short", len(data)) from None

        return read_number

    def make_writer(self) -> Writer:
        pack, failure = self.packed.pack, struct.error

        def write_number(value: Value, out: bytearray) -> None:
            try:
                out += pack(value)
            except failure as why:
                raise ValueError(f"{value!r} isn't a number of its type: {why}") from None

        return write_number


U32, I32, U64, I64 = Number("I"), Number("i"), Number("Q"), Number("q")


class Fixed(Type):
    """So many bytes, a multiple of four."""

    def __init__(self, size: int) -> None:
        self.size = size

    def make_reader(self) -> Reader:
        size = self.size

        def read_fixed(data: Data, offset: int) -> Tuple[Value, int]:
            end = offset + size
            if end > len(data):
                raise XdrFault("Short", len(data))
            return data[offset:end], end

        return read_fixed

    def make_writer(self) -> Writer:
        size = self.size

        def write_fixed(value: Value, out: bytearray) -> None:
            if len(value) != size:
                raise ValueError(f"{len(value)} bytes in place of {size}")
            out += value

        return write_fixed


class Code(Fixed):
    """The code of an asset: letters or digits, and zero bytes after them. Other bytes are read, too."""


class Opaque(Type):
    """At most so many bytes after their number, filled up with zero bytes to a multiple of four."""

    def __init__(self, most: int) -> None:
        self.most = most

    def make_reader(self) -> Reader:
        most, read_count = self.most, U32.reader

        def read_opaque(data: Data, offset: int) -> Tuple[Value, int]:
            count, start = read_count(data, offset)
            if count > most:
                raise XdrFault("TooLong", offset)
            end = start + count
            after = end + -count % 4
            if after > len(data):
                raise XdrFault("Short", len(data))
            while end < after:
                if data[end]:
                    raise XdrFault("Padding", end)
                end += 1
            return data[start:start + count], after

        return read_opaque

    def make_writer(self) -> Writer:
        most, write_count = self.most, U32.writer

        def write_opaque(value: Value, out: bytearray) -> None:
            if len(value) > most:
                raise XdrFault("TooLong", len(out))
            write_count(len(value), out)
            out += value
            out += bytes(-len(value) % 4)

        return write_opaque


class Text(Opaque):
    """At most so many bytes that Stellar's types call a string. They may be any bytes."""


class Option(Type):
    """A value that may be absent: a flag, and the value after a 1."""

    def __init__(self, item: Type) -> None:
        self.item = item

    def make_reader(self) -> Reader:
        read_flag, read_item = U32.reader, self.item.reader

        def read_option(data: Data, offset: int) -> Tuple[Value, int]:
            flag, after = read_flag(data, offset)
            if flag == 0:
                return None, after
            if flag != 1:
                raise XdrFault("BadFlag", offset)
            return read_item(data, after)

        return read_option

    def make_writer(self) -> Writer:
        write_flag, write_item = U32.writer, self.item.writer

        def write_option(value: Value, out: bytearray) -> None:
            write_flag(0 if value is None else 1, out)
            if value is not None:
                write_item(value, out)

        return write_option


class Items(Type):
    """A list: the number of its items, at most so many, and the items. Without a bound it is that of a u32."""

    def __init__(self, item: Type, most: int = 2**32 - 1) -> None:
        self.item, self.most = item, most

    def make_reader(self) -> Reader:
        most, read_count, read_item = self.most, U32.reader, self.item.reader

        def read_items(data: Data, offset: int) -> Tuple[Value, int]:
            count, after = read_count(data, offset)
            if count > most:
                raise XdrFault("TooLong", offset)
            items = []
            for _ in range(count):
                item, after = read_item(data, after)
                items.append(item)
            return items, after

        return read_items

    def make_writer(self) -> Writer:
        most, write_count, write_item = self.most, U32.writer, self.item.writer

        def write_items(value: Value, out: bytearray) -> None:
            if len(value) > most:
                raise XdrFault("TooLong", len(out))
            write_count(len(value), out)
            for item in value:
                write_item(item, out)

        return write_items


class Array(Type):
    """So many items without their number."""

    def __init__(self, item: Type, count: int) -> None:
        self.item, self.count = item, count

    def make_reader(self) -> Reader:
        count, read_item = self.count, self.item.reader

        def read_array(data: Data, offset: int) -> Tuple[Value, int]:
            items = []
            for _ in range(count):
                item, offset = read_item(data, offset)
                items.append(item)
            return items, offset

        return read_array

    def make_writer(self) -> Writer:
        count, write_item = self.count, self.item.writer

        def write_array(value: Value, out: bytearray) -> None:
            if len(value) != count:
                raise ValueError(f"{len(value)} items in place of {count}")
            for item in value:
                write_item(item, out)

        return write_array


class Struct(Type):
    """Fields in order, each by its name."""

    def __init__(self, **fields: Type) -> None:
        self.fields = fields

    def make_reader(self) -> Reader:
        readers = [(name, kind.reader) for name, kind in self.fields.items()]

        def read_struct(data: Data, offset: int) -> Tuple[Value, int]:
            value = {}
            for name, read_field in readers:
                value[name], offset = read_field(data, offset)
            return value, offset

        return read_struct

    def make_writer(self) -> Writer:
        writers, names = [(name, kind.writer) for name, kind in self.fields.items()], set(self.fields)

        def write_struct(value: Value, out: bytearray) -> None:
            if value.keys() != names:
                raise ValueError(f"the fields {sorted(value)} in place of {sorted(names)}")
            for name, write_field in writers:
                write_field(value[name], out)

        return write_struct


# an arm of a union: Stellar's name or number of its discriminant, and the name and type of its field where it has one
Name = Union[str, int]
Arm = Tuple[Name, Optional[str], Optional[Type]]


class Choice(Type):
    """A union: its discriminant, which Stellar calls `switch`, as an i32, and what follows it by its number."""

    def __init__(self, switch: str, arms: Mapping[int, Tuple]) -> None:
        self.switch = switch
        self.arms: Dict[int, Arm] = {number: (*arm, None, None)[:3] for number, arm in arms.items()}

    def make_reader(self) -> Reader:
        switch, read_number, failed = self.switch, I32.reader, (None, None, None)
        arms = {number: (name, field, kind and kind.reader) for number, (name, field, kind) in self.arms.items()}

        def read_choice(data: Data, offset: int) -> Tuple[Value, int]:
            number, after = read_number(data, offset)
            name, field, read_arm = arms.get(number, failed)
            if name is None:
                raise XdrFault("BadEnum", offset)
            if read_arm is None:
                return {switch: name}, after
            value, after = read_arm(data, after)
            return {switch: name, field: value}, after

        return read_choice

    def make_writer(self) -> Writer:
        switch, write_number = self.switch, I32.writer
        arms = {
            name: (number, {switch, field} - {None}, field, kind and kind.writer)
            for number, (name, field, kind) in self.arms.items()
        }
        failed = (None, set(), None, None)

        def write_choice(value: Value, out: bytearray) -> None:
            number, names, field, write_arm = arms.get(value[switch], failed)
            if number is None:
                raise XdrFault("BadEnum", len(out))
            if value.keys() != names:
                raise ValueError(f"the fields {sorted(value)} of a union at {value[switch]}")
            write_number(number, out)
            if write_arm is not None:
                write_arm(value[field], out)

        return write_choice


class Formed(Type):
    """A struct of one of two forms, which have other fields: the plain one, whose first field is an u32 other than a
    word, and one that stands after this word."""

    def __init__(self, word: int, plain: Struct, other: Struct) -> None:
        self.word, self.plain, self.other = word, plain, other

    def make_reader(self) -> Reader:
        word, read_word, read_plain, read_other = self.word, U32.reader, self.plain.reader, self.other.reader

        def read_formed(data: Data, offset: int) -> Tuple[Value, int]:
            first, after = read_word(data, offset)
            return read_other(data, after) if first == word else read_plain(data, offset)

        return read_formed

    def make_writer(self) -> Writer:
        word, write_word, write_plain, write_other = self.word, U32.writer, self.plain.writer, self.other.writer
        names, first = set(self.other.fields), next(iter(self.plain.fields))

        def write_formed(value: Value, out: bytearray) -> None:
            if value.keys() == names:
                write_word(word, out)
                write_other(value, out)
            elif value[first] == word:
                raise ValueError(f"{first} {word} in the plain form")
            else:
                write_plain(value, out)

        return write_formed


class Refused(Type):
    """Where no value may begin, with the kind of the fault."""

    def __init__(self, kind: str) -> None:
        self.kind = kind

    def make_reader(self) -> Reader:
        def read_refused(data: Data, offset: int) -> Tuple[Value, int]:
            raise XdrFault(self.kind, offset)

        return read_refused

    def make_writer(self) -> Writer:
        def write_refused(value: Value, out: bytearray) -> None:
            raise XdrFault(self.kind, len(out))

        return write_refused


def read(kind: Type, data: Data, offset: int = 0) -> Tuple[Value, int]:
    """The value of a type at an offset, and the offset after it. Raises XdrFault."""
    return kind.reader(data, offset)


def read_entire(kind: Type, data: Data) -> Value:
    """The value that bytes encode, and no byte more. Raises XdrFault."""
    value, after = kind.reader(data, 0)
    if after < len(data):
        raise XdrFault("Trailing", after)
    return value


def write(kind: Type, value: Value) -> bytes:
    """The encoding of a value. Raises XdrFault where it breaks a bound, and ValueError where it isn't of the type."""
    out = bytearray()
    try:
        kind.writer(value, out)
    except (AttributeError, KeyError, TypeError) as why:
        raise ValueError(f"a value of another type: {why!r}") from None
    return bytes(out)
