#!/usr/bin/env python3
"""A model of stored bytes, of its own: what entries spell, where bytes stop, and what crashes leave of a file.

It asks of each front of some bytes whether a spelling may still go on with it, and so finds the first byte with which none
does; it has no reader that walks to a fault. Files are written as docs/FORMAT.md says, over a disk that keeps what is pending.

    model/storage.py FOLDER     writes the tables into FOLDER
"""

import itertools
import os
import sys

LABELS, PLACE, NODES, WEIGHT, EACH = 64, 1024, 1048576, 33554432, 16
TEXT, OPERATIONS = 1048576, 65535


class Wrong(Exception):
    """No spelling goes on with the bytes."""


class More(Exception):
    """The bytes are the front of some spelling."""


# ---- the grammar


def may_be_text(front, size):
    """Whether some UTF-8 text of `size` bytes begins with the front."""
    missing = size - len(front)
    if front.isascii():
        return True
    for added in range(min(missing, 3) + 1):
        for end in itertools.product((0x80, 0x8F, 0x90, 0x9F, 0xA0, 0xBF), repeat=added):
            try:
                (front + bytes(end)).decode()
                return True
            except UnicodeDecodeError:
                pass
    return False


class Bytes:
    def __init__(self, data):
        self.data, self.at = data, 0

    def some(self, size):
        """The next bytes, and whether they are all there."""
        found = self.data[self.at : self.at + size]
        return found, len(found) == size

    def number(self, size, least, most):
        found, whole = self.some(size)
        span = 256 ** (size - len(found))
        low = int.from_bytes(found, "big") * span
        if max(low, least) > min(low + span - 1, most):
            raise Wrong
        if not whole:
            raise More
        self.at += size
        return low

    def text(self, size, late=lambda filled: True):
        """A text of `size` bytes; `late` is asked of its front, filled up with the greatest bytes."""
        found, whole = self.some(size)
        if not may_be_text(found, size) or not late(found + b"\xff" * (size - len(found))):
            raise Wrong
        if not whole:
            raise More
        self.at += size
        return found

    def name(self):
        size = self.number(1, 1, 32)
        found, whole = self.some(size)
        for index, byte in enumerate(found):
            letter = chr(byte).isascii() and chr(byte).isalpha()
            if not (letter or index > 0 and (chr(byte) in "0123456789_")):
                raise Wrong
        if not whole:
            raise More
        self.at += size
        return found

    def label(self, most, late=lambda filled: True):
        return self.text(self.number(1, 0, min(most, 255)), late)

    def path(self, room, elder=None):
        """A path; one that comes after the elder, as far as its labels may be any bytes."""
        count = self.number(1, 0, LABELS)
        labels = []

        def late(*filled):
            greatest = (*labels, *filled, *[b"\xff"] * (count - len(labels) - len(filled)))
            return elder is None or greatest > elder

        if not late():
            raise Wrong
        for left in range(count, 0, -1):
            label = self.label(room - left, late)
            room -= len(label) + 1
            labels.append(label)
        return tuple(labels)

    def place(self):
        name = self.name()
        return name, self.path(PLACE - len(name))

    def content(self, room):
        form = self.number(1, 0, 6)
        if form == 4:
            return form, self.number(8, 0, 2**64 - 1)
        if form == 5:
            return form, self.number(8, 2**63, 2**64 - 1) - 2**64
        if form == 6:
            return form, self.text(self.number(4, 0, min(TEXT, room)))
        return form, None

    def tree(self, levels, size, left, least=0):
        """A tree in a room; `left` is what may still be announced: places, and weight."""
        form, value = self.content(left[1])
        if form == 6:
            left[1] -= len(value)
        if form > 0:
            return form, value
        return form, self.children(levels, size, left, least)

    def children(self, levels, size, left, least):
        most = min(left[0], left[1] // EACH) if levels and size else 0
        count = self.number(4, least, most)
        left[0] -= count
        left[1] -= EACH * count
        found = []
        for _ in range(count):
            label = self.label(min(size - 1, left[1]), lambda filled: not found or filled > found[-1][0])
            left[1] -= len(label)
            found.append((label, self.tree(levels - 1, size - len(label) - 1, left)))
        return found

    def whole_tree(self, name):
        return self.tree(LABELS, PLACE - name, [NODES - 1, WEIGHT - EACH])

    def operation(self, trees):
        form = self.number(1, 1, 4 if trees else 3)
        if form == 3:
            return form, self.place(), self.path(PLACE - 1)
        path, label = self.path(PLACE - 1), self.label(255)
        if form == 1:
            return form, path, label, self.content(TEXT)
        if form == 2:
            return form, path, label
        self.number(1, 0, 0)
        return form, path, label, (0, self.children(LABELS, PLACE - 1, [NODES - 1, WEIGHT - EACH], 1))

    def record(self, elder=None):
        tid = self.number(8, elder[0] if elder else 0, 2**64 - 1)
        found, whole = self.some(1)
        if not whole:
            raise More
        if found not in (b"I", b"C", b"D", b"K"):
            raise Wrong
        self.at += 1
        path = self.path(PLACE - 1, elder[2] if elder and elder[0] == tid else None)
        return tid, found, path, self.place() if found == b"C" else None

    def changes(self, trees):
        operations = [self.operation(trees) for _ in range(self.number(4, 1, OPERATIONS))]
        records = []
        for _ in range(self.number(4, 0, 2**32 - 1)):
            records.append(self.record(records[-1] if records else None))
        return operations, records

    def entry(self):
        form = self.number(1, 1, 4)
        if form == 1:
            kind = self.number(1, 0, 3)
            return form, kind, self.whole_tree(1)
        if form == 2:
            name = self.name()
            return form, name, self.whole_tree(len(name))
        if form == 3:
            return form, None, self.changes(False)
        stamp = self.label(255), self.number(8, 0, 2**64 - 1)
        return form, stamp, self.changes(True)


def entry_in(data):
    """The entry at the front of the bytes and its end, or why there is none."""
    reader = Bytes(data)
    return reader.entry(), reader.at


def goes_on(front):
    """Whether a spelling goes on with this front, or has ended within it."""
    try:
        entry_in(front)
        return True
    except More:
        return True
    except Wrong:
        return False


def stop_of(data):
    """The first byte with which no spelling of an entry goes on, or None where the bytes are an entry."""
    if not goes_on(data):
        passes, fails = 0, len(data)
        while fails - passes > 1:
            middle = (passes + fails) // 2
            passes, fails = (middle, fails) if goes_on(data[:middle]) else (passes, middle)
        return fails - 1
    try:
        end = entry_in(data)[1]
    except More:
        return len(data)
    return None if end == len(data) else end


# ---- lines


def quoted(text, triggers):
    """A word as it is, or in quotation marks where one of its characters needs them."""
    if text and not any(ord(c) <= 32 or c in '";{}:,' for c in text) or not triggers and not text:
        return text
    return '"' + "".join({'"': '\\"', "\\": "\\\\"}.get(c, c) for c in text) + '"'


def label_text(label):
    return quoted(label.decode().replace("~", "~0").replace("/", "~1"), True)


def place_text(name, path):
    raw = name.decode() + "".join("/" + a.decode().replace("~", "~0").replace("/", "~1") for a in path)
    return quoted(raw, False)


def value_text(form, value):
    if form == 6:
        return '"' + "".join({'"': '\\"', "\\": "\\\\"}.get(c, c) for c in value.decode()) + '"'
    return {1: "null", 2: "false", 3: "true"}.get(form, str(value))


def tree_text(tree):
    form, value = tree
    if form:
        return value_text(form, value)
    return "{" + ", ".join(label_text(a) + " : " + tree_text(t) for a, t in value or []) + "}"


def operation_line(op):
    if op[0] == 2:
        return f"del {label_text(op[2])} from {place_text(b'T', op[1])}"
    if op[0] == 3:
        return f"copy {place_text(*op[1])} into {place_text(b'T', op[2])}"
    return f"ins {label_text(op[2])} {tree_text(op[3])} into {place_text(b'T', op[1])}"


def record_line(record):
    tid, letter, path, source = record
    line = f"record {tid} {letter.decode()} {place_text(b'T', path)}"
    return line + " " + place_text(*source) if source else line


def entry_lines(data):
    stop = stop_of(data)
    if stop is not None:
        return [f"stops at {stop}"]
    form, first, second = entry_in(data)[0]
    if form == 1:
        return [f"start {('n', 't', 'h', 'ht')[first]} {tree_text(second)}"]
    if form == 2:
        return [f"load {first.decode()} {tree_text(second)}"]
    head = "commit" if form == 3 else f"stamped {label_text(first[0])} {first[1]}"
    return [head] + [operation_line(op) for op in second[0]] + [record_line(r) for r in second[1]]


def ranges(texts, between):
    """Numbers from 0 on that have the same text, as one range."""
    found, first = [], 0
    for index in range(1, len(texts) + 1):
        if index == len(texts) or texts[index] != texts[first]:
            found.append(f"{first}..{index - 1} {texts[first]}")
            first = index
    return between.join(found)


def front_lines(data):
    lines, stopped = [], 0
    for count in range(len(data)):
        stop = stop_of(data[:count])
        if stop == count:
            stopped += 1
        else:
            lines.append(f"{count}: {'entry' if stop is None else stop}")
    return lines + [f"{stopped} stop at their end"]


def change_lines(data):
    lines = []
    for at in range(len(data)):
        stops = [stop_of(data[:at] + bytes([value]) + data[at + 1 :]) for value in range(256)]
        lines.append(f"{at}: " + ranges(["entry" if s is None else str(s) for s in stops], ", "))
    return lines


# ---- files


def header_text(data):
    if len(data) <= 1 or data[0] == 0 or len(data) >= 6 and data[0] != 1 and data[1:6] == b"CPDB\1":
        return "vacant"
    none = "not a store, at 0"
    if len(data) < 192 or data[:6] != b"\1CPDB\1" or any(data[7:64]):
        return none
    slots = []
    for at in (64, 128):
        slot = data[at : at + 64]
        if slot[0] == 1 and any(slot[17:]):
            return none
        numbers = int.from_bytes(slot[1:9], "big"), int.from_bytes(slot[9:17], "big")
        slots.append(numbers if slot[0] == 1 else None)
    if slots[0] and slots[1] and slots[0][0] == slots[1][0]:
        return none
    words = ["closed" if s is None else f"{s[0]} at {s[1]}" for s in slots]
    return f"version {2 if data[6] == 1 else 1}, {words[0]}, {words[1]}"


def frames_in(data):
    """The frames as their offsets and bodies, the gate that ends them, and whether it is closed."""
    frames, at = [], 192
    while True:
        if at >= len(data):
            return frames, at, False
        if data[at] != 1:
            return frames, at, True
        head = data[at + 1 : at + 10]
        size = int.from_bytes(head[1:], "big")
        fits = len(head) == 9 and (head[0] == 0x45 and size <= 67108864 or head[0] == 0x50)
        if not fits or len(data) < at + 10 + size:
            return frames, at, False
        frames.append((at, head[0], data[at + 10 : at + 10 + size]))
        at += 10 + size


def end_text(data):
    _, at, closed = frames_in(data)
    return f"{'closed' if closed else 'broken'} at {at}"


def frames_text(data):
    return f"{len(frames_in(data)[0])} frames, {end_text(data)}"


def walk_lines(data):
    lines = []
    for at, tag, body in frames_in(data)[0]:
        lines.append(f"at {at}, {len(body)} bytes")
        lines += entry_lines(body if tag == 0x45 else b"")
    return lines + [end_text(data)]


def left_text(data):
    text = header_text(data)
    return text.split(",")[0] + ", " + frames_text(data) if text.startswith("version") else text


# ---- a disk and what crashes leave of it


class Failed(Exception):
    pass


class Disk:
    def __init__(self, data, fails):
        self.synced = self.data = bytes(data)
        self.pending, self.fails, self.calls = set(), fails, 0

    def call(self):
        self.calls += 1
        if self.fails(self.calls):
            raise Failed

    def size(self):
        self.call()
        return len(self.data)

    def read(self, at, size):
        self.call()
        return self.data[at : at + size]

    def write(self, at, data):
        self.call()
        self.data = self.data[:at] + data + self.data[at + len(data) :]
        self.pending |= set(range(at, at + len(data)))

    def sync(self):
        self.call()
        self.synced, self.pending = self.data, set()

    def images(self):
        yield self.synced
        yield self.data
        for byte in (0, 1, 255):
            yield bytes(byte if i in self.pending else b for i, b in enumerate(self.data))


def framed(body):
    return b"\1\x45" + len(body).to_bytes(8, "big") + body


HEADER = b"\1CPDB\1\1" + bytes(185)


def make(disk, body):
    """A new store in an empty file."""
    disk.sync()
    if disk.size() <= 1:
        disk.write(0, b"\0")
        disk.sync()
    disk.write(1, (HEADER + framed(body) + b"\0")[1:])
    disk.sync()
    disk.write(0, b"\1")
    disk.sync()
    return 192 + len(framed(body))


def add(disk, at, body):
    disk.write(at + 1, (framed(body) + b"\0")[1:])
    disk.sync()
    disk.write(at, b"\1")
    disk.sync()
    return at + len(framed(body))


def fill(disk):
    at = make(disk, b"quay")
    for body in (b"pier", b"", b"dock"):
        at = add(disk, at, body)


def run_line(disk, run):
    try:
        run(disk)
        words = ["done"]
    except Failed:
        words = ["the disk failed"]
    return "; ".join(words + [left_text(image) for image in disk.images()])


def sweep_lines(fails, fuses):
    lines = []
    for call in range(1, fails + 1):
        lines.append(f"fail {call}: " + run_line(Disk(b"", lambda n: n == call), fill))
    for passes in range(fuses + 1):
        lines.append(f"fuse {passes}: " + run_line(Disk(b"", lambda n: n > passes), fill))
    return lines


def upgrade(disk):
    """Walks the frames, and makes the file one of version 2."""
    at, size = 192, disk.size()
    while True:
        gate = disk.read(at, 1)
        if gate != b"\1":
            break
        at += 10 + int.from_bytes(disk.read(at + 1, 9)[1:], "big")
    disk.write(6, b"\1")
    disk.sync()


def upgrade_lines(data, fails):
    return [f"fail {call}: " + run_line(Disk(data, lambda n: n == call), upgrade) for call in range(fails + 1)]


def write_checkpoint(disk, pieces):
    """A checkpoint after the frames, made live."""
    at, size = 192, disk.size()
    while disk.read(at, 1) == b"\1":
        at += 10 + int.from_bytes(disk.read(at + 1, 9)[1:], "big")
    disk.write(at + 1, bytes(9))
    end = at + 10
    for piece in pieces:
        disk.write(end, piece)
        end += len(piece)
    disk.write(end, b"\0")
    disk.write(at + 1, b"\x50" + (end - at - 10).to_bytes(8, "big"))
    disk.sync()
    disk.write(at, b"\1")
    disk.sync()
    disk.sync()
    disk.size()
    header = disk.read(0, 192)
    number, live = live_in(header)
    slot = 128 if live == 64 else 64
    if header[slot] == 1:
        disk.write(slot, b"\0")
        disk.sync()
    disk.write(slot + 1, (number + 1).to_bytes(8, "big") + at.to_bytes(8, "big") + bytes(47))
    disk.sync()
    disk.write(slot, b"\1")
    disk.sync()


def live_in(data):
    """The greatest number of an open slot, and where that slot is; two noughts where none is open."""
    return max([(0, 0)] + [(int.from_bytes(data[at + 1 : at + 9], "big"), at) for at in (64, 128) if data[at] == 1])


def live_text(data):
    number, slot = live_in(data)
    offset = int.from_bytes(data[slot + 9 : slot + 17], "big")
    return (f"{number} at {offset} live, " if slot else "none live, ") + frames_text(data)


def checkpoint_text(disk):
    try:
        write_checkpoint(disk, (b"quay", b"pier"))
        words = ["done"]
    except Failed:
        words = ["the disk failed"]
    return "; ".join(words + [live_text(image) for image in disk.images()])


def checkpoint_lines(data, fails, fuses):
    failed = [checkpoint_text(Disk(data, lambda n: n == call)) for call in range(fails + 1)]
    burnt = [checkpoint_text(Disk(data, lambda n: n > passes)) for passes in range(fuses + 1)]
    return [line for texts in (failed, burnt) for line in ranges(texts, "\n").split("\n")]


def with_checkpoints(data, count):
    """The file after so many checkpoints."""
    for _ in range(count):
        disk = Disk(data, lambda n: False)
        write_checkpoint(disk, (b"mole",))
        data = disk.data
    return data


# ---- the tables

START = bytes.fromhex("01 00 00 00000000")
STARTED = bytes.fromhex("01 03 00 00000003 00 03 01 61 00 00000001 02 c3a9 05 fffffffffffffffe 01 62 06 00000002 6869")
LOAD = bytes.fromhex("02 01 53 00 00000001 01 78 04 0000000000000005")
COMMIT = bytes.fromhex("03 00000001 01 00 01 61 04 0000000000000001 00000001 0000000000000001 49 01 01 61")
COPY = bytes.fromhex("03 00000002 02 01 02 c3a9 00 03 02 5331 01 01 78 01 01 61 00000002 0000000000000007 43 01 01 61 02 5331 01 01 78 0000000000000007 44 01 02 c3a9")
FIRST = bytes.fromhex("04 00 0000000000000000") + COMMIT[1:]
TREE = bytes.fromhex("04 05 416461204c 00000000000003e8 00000001 04 00 01 67 00 00000002 03 6c6f63 00 00000001 00 06 00000001 37 03 73796d 03 00000001 0000000000000001 49 01 01 67")
CLEARED = bytes.fromhex("04 00 0000000000000000 00000001 01 00 01 61 01 00000001 0000000000000001 49 01 01 61")
COPIED = bytes.fromhex("04 00 0000000000000000 00000001 03 01 53 01 01 78 01 01 61 00000001 0000000000000002 43 01 01 61 01 53 01 01 78")

ENTRIES = [
    ("the start of a store of kind n without places", START),
    ("the start of a store of kind ht with places", STARTED),
    ("a source", LOAD),
    ("a commit of a file of version 1", COMMIT),
    ("a commit of version 1 that deletes and copies", COPY),
    ("a commit with its stamp", FIRST),
    ("a commit with its stamp that inserts a tree", TREE),
]


# each with what it shows, and its bytes as words
SINGLE = [
    ("no bytes", ""),
    ("no such form", "05"),
    ("a byte after an entry", "01 00 00 00000000 00"),
    ("no such kind", "01 04"),
    ("two children in order", "01 00 00 00000002 01 61 01 01 62 01"),
    ("the second child comes before the first", "01 00 00 00000002 01 62 01 01 61 01"),
    ("the same label twice", "01 00 00 00000002 01 61 01 01 61 01"),
    ("a shorter label in front of a longer one that begins with it", "01 00 00 00000002 01 61 01 02 6162 01"),
    ("a longer label in front of one that it begins with", "01 00 00 00000002 02 6162 01 01 61 01"),
    ("the empty label comes first", "01 00 00 00000002 00 01 01 61 01"),
    ("the empty label comes second", "01 00 00 00000002 01 61 01 00 01"),
    ("a label that its first byte puts out of order", "01 00 00 00000002 03 626364 01 03 616364 01"),
    ("a label that a middle byte puts out of order", "01 00 00 00000002 03 626364 01 03 626264 01"),
    ("a label that its last byte puts out of order", "01 00 00 00000002 03 626364 01 03 626363 01"),
    ("a longer label after one that comes later", "01 00 00 00000002 01 62 01 03 616363 01"),
    ("a label out of order whose later bytes are no text", "01 00 00 00000002 01 62 01 03 61ffff"),
    ("a label that is no text before it is out of order", "01 00 00 00000002 03 626364 01 03 62ff61"),
    ("a label out of order that isn't all there", "01 00 00 00000002 01 62 01 ff 61"),
    ("a label that may still be in order", "01 00 00 00000002 03 626364 01 03 6263"),
    ("a label so short that no text of its length comes later", "01 00 00 00000002 02 c3a9 01 01 61 01"),
    ("children of different nodes may have the same label", "01 00 00 00000002 01 61 00 00000001 01 62 01 01 62 01"),
    ("the most children are as many as the places that are left", "01 00 00 000fffff"),
    ("one child more", "01 00 00 00100000"),
    ("many children more", "01 00 00 01"),
    ("a positive number in the form of negative ones", "01 00 05 7fffffffffffffff"),
    ("the least number", "01 00 05 8000000000000000"),
    ("the greatest number", "01 00 04 ffffffffffffffff"),
    ("a text that is too long", "01 00 06 00100001"),
    ("a text of the most bytes is only begun", "01 00 06 00100000"),
    ("a text that isn't UTF-8", "01 00 06 00000002 c328"),
    ("64 labels", "01 00 " + "0000000001 00 " * 64 + "01"),
    ("64 labels, and a node below them", "01 00 " + "0000000001 00 " * 64 + "0000000000"),
    ("65 labels", "01 00 " + "0000000001 00 " * 64 + "0000000001"),
    ("a place of the largest size", "01 00 " + ("0000000001 ff 78*255 " * 3) + "0000000001 fe 78*254 01"),
    ("a label that makes a place too large", "01 00 " + ("0000000001 ff 78*255 " * 3) + "0000000001 ff"),
    ("a place of the largest size has no children", "01 00 " + ("0000000001 ff 78*255 " * 3) + "0000000001 fe 78*254 0000000001"),
    ("a name of two letters leaves one byte less", "02 02 5331 " + ("0000000001 ff 78*255 " * 3) + "0000000001 fe"),
    ("a source named T is spelled", "02 01 54 01"),
    ("a name that begins with a digit", "02 02 3153"),
    ("a source without a name", "02 00"),
    ("a commit without operations", "03 00000000"),
    ("the most operations", "03 0000ffff"),
    ("one operation more", "03 00010000"),
    ("a tree in a commit of version 1", "03 00000001 04"),
    ("a tree that is a leaf", "04 00 0000000000000000 00000001 04 00 01 61 01"),
    ("a tree without children", "04 00 0000000000000000 00000001 04 00 01 61 00 00000000"),
    ("a tree with children out of order", "04 00 0000000000000000 00000001 04 00 01 61 00 00000002 01 63 01 01 62 01"),
    ("records in order of Tid", "03 00000001 02 00 01 61 00000002 0000000000000001 44 01 01 62 0000000000000002 44 01 01 61"),
    ("records out of order of Tid", "03 00000001 02 00 01 61 00000002 0000000000000002 44 01 01 61 0000000000000001 44 01 01 62"),
    ("records out of order of place", "03 00000001 02 00 01 61 00000002 0000000000000001 44 01 01 62 0000000000000001 44 01 01 61"),
    ("two records of one place and one step", "03 00000001 02 00 01 61 00000002 0000000000000001 44 01 01 61 0000000000000001 49 01 01 61"),
    ("a Tid out of order, of which a byte is there", "03 00000001 02 00 01 61 00000002 0100000000000000 44 01 01 61 00"),
    ("a Tid out of order, and no such letter", "03 00000001 02 00 01 61 00000002 0000000000000102 44 01 01 61 0000000000000101 5a"),
    ("a Tid that may still be in order", "03 00000001 02 00 01 61 00000002 0000000000000102 44 01 01 61 00000000000001"),
    ("the root after another place", "03 00000001 02 00 01 61 00000002 0000000000000001 44 01 01 61 0000000000000001 49 00"),
    ("a place before those above it", "03 00000001 02 00 01 61 00000002 0000000000000001 44 02 01 61 01 62 0000000000000001 49 01 01 61"),
    ("a place after those above it", "03 00000001 02 00 01 61 00000002 0000000000000001 44 01 01 61 0000000000000001 49 02 01 61 01 62"),
    ("a place that its first label puts out of order", "03 00000001 02 00 01 61 00000002 0000000000000001 44 02 01 62 01 62 0000000000000001 49 02 01 61 01 63"),
    ("a place that its second label puts out of order", "03 00000001 02 00 01 61 00000002 0000000000000001 44 02 01 61 03 626364 0000000000000001 49 03 01 61 03 626264 01 61"),
    ("a label of a place begins that of the one before", "03 00000001 02 00 01 61 00000002 0000000000000001 44 02 02 6162 01 61 0000000000000001 49 02 01 61 01 63"),
    ("a label of a place begins with that of the one before", "03 00000001 02 00 01 61 00000002 0000000000000001 44 02 01 61 01 63 0000000000000001 49 02 02 6162 01 61"),
    ("an empty label of a place after another", "03 00000001 02 00 01 61 00000002 0000000000000001 44 02 01 61 01 63 0000000000000001 49 02 00 01 63"),
    ("a place out of order whose later labels are no texts", "03 00000001 02 00 01 61 00000002 0000000000000001 44 02 01 61 01 63 0000000000000001 49 03 01 61 02 62ff"),
    ("a place out of order, and no source", "03 00000001 02 00 01 61 00000002 0000000000000001 44 01 01 62 0000000000000001 43 01 01 61 00"),
    ("no records", "03 00000001 02 00 01 61 00000000"),
    ("no such letter", "03 00000001 02 00 01 61 00000001 0000000000000001 5a"),
    ("a copy to a place from itself", "04 01 61 0000000000000005 00000001 03 01 54 00 00 00000000"),
]


def words_of(text):
    """The bytes that the words of a table spell."""
    data = b""
    for word in text.split():
        digits, _, times = word.partition("*")
        data += bytes.fromhex(digits) * int(times or 1)
    return data


def spelled(data):
    return data.hex(" ", 1)


def part(key, data, lines, words=""):
    rows = [key + (" " + words if words else "")]
    rows += ["| " + line for line in ([data] if data else [])]
    return rows + ["out"] + ["| " + line for line in lines]


def entries_table():
    rows = ["# Entries as bytes. Made by model/storage.py."]
    for name, data in ENTRIES:
        rows += ["", "case " + name]
        rows += part("entry", spelled(data), entry_lines(data))
        rows += part("fronts", spelled(data), front_lines(data))
        rows += part("changes", spelled(data), change_lines(data))
    for name, text in SINGLE:
        rows += ["", "case " + name] + part("entry", text, entry_lines(words_of(text)))
    return rows


def store(version, entries):
    return HEADER[:6] + bytes([version]) + HEADER[7:] + b"".join(framed(e) for e in entries) + b"\0"


FILES = [
    ("a store of kind n without places", store(1, [START])),
    ("the same after a commit", store(1, [START, FIRST])),
    ("a store with a source and two commits", store(1, [START, LOAD, CLEARED, COPIED])),
    ("the store after a commit in version 1", store(0, [START, COMMIT])),
    ("a store of version 1 with a source and two commits", store(0, [START, LOAD, b"\3" + CLEARED[10:], b"\3" + COPIED[10:]])),
    ("a store with two checkpoints", with_checkpoints(store(1, [START, FIRST]), 2)),
]

SLOT = b"\1" + (5).to_bytes(8, "big") + (300).to_bytes(8, "big") + bytes(47)

HEADERS = [
    ("another version", HEADER[:6] + b"\7" + HEADER[7:]),
    ("a closed gate, and the front of a store", b"\2" + HEADER[1:]),
    ("a closed gate, and another front", b"\2" + b"DPDB" + HEADER[5:]),
    ("a byte that has to be zero", HEADER[:63] + b"\1" + HEADER[64:]),
    ("the first slot open", HEADER[:64] + SLOT + HEADER[128:]),
    ("both slots open", HEADER[:64] + SLOT + SLOT[:8] + b"\6" + SLOT[9:]),
    ("two slots with one number", HEADER[:64] + SLOT + SLOT),
    ("an open slot that doesn't end with zeros", HEADER[:64] + SLOT[:17] + b"\1" + SLOT[18:] + HEADER[128:]),
    ("a closed slot may hold anything", HEADER[:64] + b"\2" + b"\xff" * 63 + HEADER[128:]),
    ("an open second slot that doesn't end with zeros", HEADER[:128] + SLOT[:63] + b"\1"),
]

FRAMES = [
    ("a gate that is neither open nor closed", HEADER + framed(START) + b"\2" + framed(START)),
    ("another tag", HEADER + framed(START) + b"\1\x46" + bytes(8) + b"\0"),
    ("the frame of a checkpoint", HEADER + framed(START) + b"\1\x50" + bytes(7) + b"\3abc" + b"\0"),
    ("an entry of one byte too many", HEADER + b"\1\x45" + (67108865).to_bytes(8, "big") + bytes(20)),
    ("a length as if its first byte were the least", HEADER + b"\1\x45" + b"\7" + bytes(7) + START + b"\0"),
]


def files_table():
    rows = ["# Files of stores. Made by model/storage.py."]
    for name, data in FILES:
        rows += ["", "case " + name]
        text = spelled(data)
        rows += part("header", text, [header_text(data)])
        rows += part("walk", text, walk_lines(data))
        rows += part("headers", text, ranges([header_text(data[:n]) for n in range(len(data) + 1)], "\n").split("\n"))
        rows += part("walks", text, ranges([frames_text(data[:n]) for n in range(len(data) + 1)], "\n").split("\n"))
    for name, data in HEADERS:
        rows += ["", "case " + name] + part("header", spelled(data), [header_text(data)])
    for name, data in FRAMES:
        rows += ["", "case " + name] + part("walk", spelled(data), walk_lines(data))
    return rows


def crashes_table():
    rows = ["# What crashes leave where calls of the disk fail. Made by model/storage.py."]
    rows += ["", "case a new store and three entries"] + part("sweep", "", sweep_lines(21, 20), "21 20")
    old = FILES[3][1]
    rows += ["", "case a file of version 1 becomes one of version 2"]
    rows += part("upgrade", spelled(old), upgrade_lines(old, 9), "9")
    for count, calls in ((0, 26), (1, 28), (2, 32), (3, 34)):
        file = with_checkpoints(FILES[1][1], count)
        rows += ["", f"case a checkpoint is made live in a file with {count} before it"]
        rows += part("checkpoint", spelled(file), checkpoint_lines(file, calls, calls), f"{calls} {calls}")
    rows += ["", "case an entry, and one of one byte more than an entry may have"]
    rows += part("large", "", ["1000: added, 1217 bytes", "67108865: too large, 207 bytes"], "1000 67108865")
    rows += ["", "case many entries"] + part("entries", "", ["101 frames, closed at 7206"], "100 60")
    return rows


def main():
    for name, rows in (("entries", entries_table()), ("files", files_table()), ("crashes", crashes_table())):
        with open(os.path.join(sys.argv[1], name + ".txt"), "w") as out:
            out.write("\n".join(rows) + "\n")


if __name__ == "__main__":
    main()
