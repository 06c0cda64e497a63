"""The file of a store, read by docs/FORMAT.md alone: its header, its frames, and the entries that they hold."""
import os
from typing import Dict, Iterator, List, NamedTuple, Optional, Tuple, Union

from .replies import Record
from .spelling import Place, Tree, copy_text, delete_text, insert_text

__all__ = ["CommitEntry", "Copy", "Delete", "Entry", "FormatError", "Frame", "Frames", "Header", "Insert", "Load", "Operation",
           "Sizes", "Slot", "Start", "entry", "entries_of", "frame_at",
           "frames", "header", "is_vacant", "operation_text", "sizes", "upto"]

KINDS = ("n", "t", "h", "ht")
FIRST_FRAME = 192
LONGEST_ENTRY = 67_108_864
_SLOTS = (64, 128)
_FRAME_HEAD = 10

Buffer = Union[bytes, bytearray, memoryview]


class FormatError(ValueError):
    """Bytes that can't stand where they stand. `offset` counts from the start of what was read."""

    def __init__(self, offset: int, cause: str) -> None:
        super().__init__(f"{cause} at {offset}")
        self.offset, self.cause = offset, cause


class Slot(NamedTuple):
    """A slot of the header for a checkpoint: whether its gate is open, its number, and the offset that it names."""

    is_open: bool
    number: int
    offset: int


class Header(NamedTuple):
    """The header: the version of the file, 1 or 2, and its two slots."""

    version: int
    slots: Tuple[Slot, Slot]


class Frame(NamedTuple):
    """A frame: the offset of its gate, its tag ("E" for an entry, "P" for a checkpoint), and its body."""

    offset: int
    tag: str
    body: bytes

    @property
    def body_offset(self) -> int:
        """Where the body begins."""
        return self.offset + _FRAME_HEAD

    @property
    def end(self) -> int:
        """Where the next frame begins."""
        return self.body_offset + len(self.body)


class Frames(NamedTuple):
    """The header and the frames of a file."""

    header: Header
    frames: List[Frame]


class Insert(NamedTuple):
    """The operation `ins {LABEL : TREE} into PLACE`."""

    place: Place
    label: str
    tree: Tree


class Delete(NamedTuple):
    """The operation `del LABEL from PLACE`."""

    place: Place
    label: str


class Copy(NamedTuple):
    """The operation `copy SOURCE into TARGET`."""

    source: Place
    target: Place


Operation = Union[Insert, Delete, Copy]


def operation_text(operation: Operation) -> str:
    """An operation as the statement that does it, without its end."""
    if isinstance(operation, Insert):
        return insert_text(operation.place, operation.label, operation.tree)
    if isinstance(operation, Delete):
        return delete_text(operation.place, operation.label)
    return copy_text(operation.source, operation.target)


class Start(NamedTuple):
    """The start entry: the kind of the store, and the tree from which it starts."""

    kind: str
    tree: Tree


class Load(NamedTuple):
    """The entry of a load: a source's name and tree."""

    name: str
    tree: Tree


class CommitEntry(NamedTuple):
    """The entry of a commit. In a file of version 1 the curator is empty and the moment 0."""

    curator: str
    moment: int
    operations: List[Operation]
    records: List[Record]


Entry = Union[Start, Load, CommitEntry]


class Sizes(NamedTuple):
    """An entry, and how many bytes its operations and its records take, their numbers taken in; 0 where it is no commit."""

    entry: Entry
    operations: int
    records: int


def is_vacant(data: Buffer) -> bool:
    """Whether no store stands in a file yet."""
    return len(data) < 2 or data[0] == 0 or (data[0] != 1 and bytes(data[1:6]) == b"CPDB\x01")


def header(data: Buffer) -> Header:
    """The header of a file; FormatError where it isn't that of a store."""
    if len(data) < FIRST_FRAME or bytes(data[:6]) != b"\x01CPDB\x01" or any(data[7:64]):
        raise FormatError(0, "no header of a store stands")
    first, second = (_slot(data, it) for it in _SLOTS)
    return Header(2 if data[6] == 1 else 1, (first, second))


def _slot(data: Buffer, at: int) -> Slot:
    number, offset = (int.from_bytes(data[it: it + 8], "big") for it in (at + 1, at + 9))
    return Slot(data[at] == 1, number, offset)


def frames(data: Buffer) -> Frames:
    """The header and the frames of a file; FormatError with the offset of a frame that is cut short or has no such tag."""
    found = Frames(header(data), [])
    offset = FIRST_FRAME
    while True:
        if offset >= len(data):
            raise FormatError(offset, "no gate stands")
        if data[offset] != 1:
            return found
        frame = frame_at(data, offset)
        found.frames.append(frame)
        offset = frame.end


def frame_at(data: Buffer, offset: int) -> Frame:
    """The frame of which an open gate stands at the offset; FormatError where it is cut short or has no such tag."""
    start = offset + _FRAME_HEAD
    end = start + int.from_bytes(data[offset + 2: start], "big")
    if len(data) < start or len(data) < end:
        raise FormatError(offset, "a frame is cut short")
    tag = chr(data[offset + 1])
    if tag not in ("E", "P"):
        raise FormatError(offset, f"a frame with the tag {data[offset + 1]:02x} stands")
    return Frame(offset, tag, bytes(data[start:end]))


def entry(body: Buffer) -> Entry:
    """The entry that a frame with the tag "E" holds; FormatError with the offset in the body."""
    return _read(body).entry


def sizes(body: Buffer) -> Sizes:
    """The entry of a frame, and how many bytes of its body operations and records have; FormatError as of `entry`."""
    return _read(body)


def _read(body: Buffer) -> Sizes:
    reader = _Reader(bytes(body))
    found = reader.entry()
    if reader.offset != len(reader.data):
        raise FormatError(reader.offset, "more bytes stand than an entry has")
    first, second = reader.parts or (len(reader.data), len(reader.data))
    return Sizes(found, second - first, len(reader.data) - second)


def entries_of(path: Union[str, "os.PathLike[str]"]) -> Iterator[Entry]:
    """The entries of a file, one after another; FormatError with the offset in the file."""
    with open(path, "rb") as file:
        data = file.read()
    for frame in frames(data).frames:
        if frame.tag == "E":
            try:
                yield entry(frame.body)
            except FormatError as error:
                raise FormatError(frame.body_offset + error.offset, error.cause) from None


def upto(data: Buffer, version: int) -> bytes:
    """The bytes of a store whose history ends with a version: the start, all loads, and the operations and records up to there."""
    found, last, pieces = frames(data), 0, [bytes(data[:_SLOTS[0]]), bytes(FIRST_FRAME - _SLOTS[0])]
    kind = ""
    for frame in found.frames:
        body = frame.body
        if frame.tag != "E":
            continue
        if body[0] == 1:
            kind = KINDS[body[1]]
        elif body[0] != 2:
            left = version - last
            last += _steps_of(body, kind)
            body = body if last <= version else _first_steps(body, left, version) if left > 0 else b""
        if body:
            pieces.append(b"\x01E" + len(body).to_bytes(8, "big") + body)
    return b"".join([*pieces, b"\x00"])


def _steps_of(body: bytes, kind: str) -> int:
    """How many steps the body of a commit has."""
    return _past_stamp(body).number(4) if kind in ("n", "h") else 1


def _first_steps(body: bytes, count: int, last: int) -> bytes:
    """The body of a commit with its first operations alone, of which each is a step, and their records."""
    reader = _past_stamp(body)
    first, total = reader.offset, reader.number(4)
    for _ in range(count):
        reader.operation()
    operations = body[first + 4:reader.offset]
    for _ in range(total - count):
        reader.operation()
    records = 0
    start, end = reader.offset + 4, reader.offset + 4
    for _ in range(reader.number(4)):
        if reader.record().tid > last:
            break
        records, end = records + 1, reader.offset
    return body[:first] + count.to_bytes(4, "big") + operations + records.to_bytes(4, "big") + body[start:end]


def _past_stamp(body: bytes) -> "_Reader":
    """Reads the body of a commit up to the number of its operations."""
    reader = _Reader(body)
    if reader.number(1) == 4:
        reader.label()
        reader.number(8)
    return reader


_CONTENTS = {0: "node", 1: "null", 2: "false", 3: "true", 4: "whole", 5: "negative", 6: "text"}
_CONSTANTS: Dict[str, Tree] = {"null": None, "false": False, "true": True}
_OPERATIONS = {1: "value", 2: "del", 3: "copy", 4: "tree"}
_RECORDS = {ord(it): it for it in "ICDK"}


class _Reader:
    """Reads one thing after another from bytes."""

    def __init__(self, data: bytes) -> None:
        self.data, self.offset = data, 0
        # Where the operations and the records of a commit begin.
        self.parts: Optional[Tuple[int, int]] = None

    def take(self, size: int) -> bytes:
        end = self.offset + size
        if end > len(self.data):
            raise FormatError(len(self.data), "the bytes end too early")
        piece, self.offset = self.data[self.offset: end], end
        return piece

    def number(self, size: int) -> int:
        return int.from_bytes(self.take(size), "big")

    def choice(self, choices: Dict[int, str], what: str) -> str:
        form = self.number(1)
        if form not in choices:
            raise FormatError(self.offset - 1, f"{what} of the form {form:02x} stands")
        return choices[form]

    def text(self, size: int) -> str:
        try:
            return self.take(size).decode("utf-8")
        except UnicodeDecodeError as error:
            raise FormatError(self.offset - size + error.start, "no UTF-8 stands") from None

    def label(self) -> str:
        return self.text(self.number(1))

    def path(self) -> Place:
        return Place("T", tuple(self.label() for _ in range(self.number(1))))

    def place(self) -> Place:
        name = self.label()
        return self.path()._replace(name=name)

    def content(self) -> Tree:
        """What stands at a place, without what is below it: `{}` for a node."""
        form = self.choice(_CONTENTS, "a content")
        if form == "whole":
            return self.number(8)
        if form == "negative":
            return self.number(8) - 2**64
        if form == "text":
            return self.text(self.number(4))
        return {} if form == "node" else _CONSTANTS[form]

    def tree(self) -> Tree:
        root = self.content()
        if isinstance(root, dict):
            for _ in range(self.number(4)):
                label = self.label()
                root[label] = self.tree()
        return root

    def operation(self) -> Operation:
        form = self.choice(_OPERATIONS, "an operation")
        if form == "copy":
            source = self.place()
            return Copy(source, self.path())
        place, label = self.path(), self.label()
        if form == "del":
            return Delete(place, label)
        return Insert(place, label, self.content() if form == "value" else self.tree())

    def record(self) -> Record:
        tid = self.number(8)
        op = self.choice(_RECORDS, "a record")
        place = self.path()
        return Record(tid, op, place, self.place() if op == "C" else None)

    def entry(self) -> Entry:
        form = self.choice({1: "start", 2: "load", 3: "commit", 4: "stamped"}, "an entry")
        if form == "start":
            kind = self.choice(dict(enumerate(KINDS)), "a kind")
            return Start(kind, self.tree())
        if form == "load":
            name = self.label()
            return Load(name, self.tree())
        curator, moment = (self.label(), self.number(8)) if form == "stamped" else ("", 0)
        first = self.offset
        operations = [self.operation() for _ in range(self.number(4))]
        self.parts = first, self.offset
        return CommitEntry(curator, moment, operations, [self.record() for _ in range(self.number(4))])
