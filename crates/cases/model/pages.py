#!/usr/bin/env python3
"""A model of pages, of its own: the rows of records and their keys, pages, runs of pages, and directories of checkpoints.

There is a writer of each, and what is read is taken apart as it stands, whatever it is, and written again: bytes are a page, a
key, a value or a directory exactly where they are written so. So nothing here looks for faults.

    model/pages.py FOLDER     writes the table of pages into FOLDER
"""

import os
import random
import sys

PAGE = 4096
LABELS, LABEL, PLACE, NAME = 64, 255, 1024, 32
LETTERS = (b"I", b"C", b"D", b"K")
KINDS = ("n", "t", "h", "ht")


def big(number, size):
    return number.to_bytes(size, "big")


def number_in(data):
    return int.from_bytes(data, "big")


class Reader:
    """Bytes that are taken one after another, as many as are there."""

    def __init__(self, data):
        self.data = data

    def some(self, size):
        found, self.data = self.data[:size], self.data[size:]
        return found

    def number(self, size):
        return number_in(self.some(size))

    def counted(self, size):
        return self.some(self.number(size))


# ---- places: a name and labels, as bytes


def is_text(data):
    try:
        data.decode()
        return True
    except UnicodeDecodeError:
        return False


def is_name(name):
    text = name.decode("latin-1")
    return 1 <= len(name) <= NAME and text.isascii() and text[0].isalpha() and all(c.isalnum() or c == "_" for c in text)


def is_place(place):
    name, *labels = place
    size = len(name) + sum(1 + len(label) for label in labels)
    fits = all(len(label) <= LABEL and is_text(label) for label in labels)
    return is_name(name) and fits and len(labels) <= LABELS and size <= PLACE


def place_bytes(place):
    name, *labels = place
    return big(len(name), 1) + name + big(len(labels), 1) + b"".join(big(len(a), 1) + a for a in labels)


def place_in(data):
    """The place with these bytes, if there is one."""
    reader = Reader(data)
    name = reader.counted(1)
    place = (name,) + tuple(reader.counted(1) for _ in range(reader.number(1)))
    return place if is_place(place) and place_bytes(place) == data else None


def place_key(place):
    name, *labels = place
    return name + b"\0\1" + b"".join(a.replace(b"\0", b"\0\xff") + b"\0\1" for a in labels) + b"\0\0"


def place_of_key(key):
    """The place of T with this key, if there is one."""
    name, *labels = [part.replace(b"\0\xff", b"\0") for part in key[:-2].split(b"\0\1")[:-1]] or [b""]
    place = (name, *labels)
    return place if name == b"T" and is_place(place) and place_key(place) == key else None


# ---- rows: a key and a value. A record is its Tid, its letter, its place and its source; a loss its place and its Tid


def mark_bytes(letter, source):
    return letter + (place_bytes(source) if source else b"")


def mark_in(value):
    """The letter and the source with these bytes, if there are such."""
    letter, source = value[:1], place_in(value[1:])
    fits = letter in LETTERS and (source is not None) == (letter == b"C")
    return (letter, source) if fits and mark_bytes(letter, source) == value else None


def row_by_place(record):
    tid, letter, place, source = record
    return place_key(place) + big(tid, 8), mark_bytes(letter, source)


def row_by_step(record):
    tid, letter, place, source = record
    return big(tid, 8) + place_key(place), mark_bytes(letter, source)


def row_by_loser(loss):
    place, tid = loss
    return place_key(place) + big(tid, 8), b""


def record_in(tid, key, value):
    place, mark = place_of_key(key), mark_in(value)
    return (number_in(tid), mark[0], place, mark[1]) if len(tid) == 8 and place and mark else None


def record_by_place(key, value):
    return record_in(key[-8:], key[:-8], value)


def record_by_step(key, value):
    return record_in(key[:8], key[8:], value)


def loss_in(key, value):
    place = place_of_key(key[:-8])
    return (place, number_in(key[-8:])) if len(key) >= 8 and place and not value else None


# by the name of the order, how its rows are written, and how they are read
ORDERS = {
    "place": (row_by_place, record_by_place),
    "step": (row_by_step, record_by_step),
    "loser": (row_by_loser, loss_in),
}


# ---- pages


def row_bytes(row):
    key, value = row
    return big(len(key), 2) + key + big(len(value), 2) + value


def rise(rows):
    return all(one[0] < other[0] for one, other in zip(rows, rows[1:]))


def page_of(rows):
    """The bytes of these rows, and zeros after them: too many where the rows don't fit."""
    return (big(len(rows), 2) + b"".join(map(row_bytes, rows))).ljust(PAGE, b"\0")


def rows_in(page):
    """The rows of a page, if it is one."""
    reader = Reader(page)
    rows = []
    for _ in range(reader.number(2)):
        if not reader.data:
            return None
        rows.append((reader.counted(2), reader.counted(2)))
    return rows if rise(rows) and page_of(rows) == page else None


def fits(row):
    return len(page_of([row])) == PAGE


def cut(rows):
    """Rows in pages: each goes into the page before where it fits, else it begins the next."""
    pages = []
    for row in rows:
        if pages and len(page_of(pages[-1] + [row])) == PAGE:
            pages[-1].append(row)
        else:
            pages.append([row])
    return pages


def greatest(rows, key):
    """The row with the greatest key that isn't above this one."""
    return max((row for row in rows if row[0] <= key), default=None)


def between(rows, low, high):
    return sorted(row for row in rows if low <= row[0] <= high)


# ---- runs: an order, an offset in the file, and a number of pages


def run_bytes(rows):
    return b"".join(map(page_of, cut(rows)))


def page_at(data, at):
    return data[at : at + PAGE]


def rows_of_run(data, run):
    """The rows of a run, if its pages are pages, each has a row, and the keys rise through them."""
    _, at, pages = run
    found = [rows_in(page_at(data, at + PAGE * number)) for number in range(pages)]
    rows = [row for page in found for row in page or ()]
    return rows if all(found) and rise(rows) else None


def rows_of_order(data, runs, order):
    """The rows of all runs of an order, if these are spelled."""
    found = [rows_of_run(data, run) for run in runs if run[0] == order]
    return None if None in found else sorted(row for rows in found for row in rows)


def merged(extra, data, runs):
    """The rows of one run that takes the place of all runs of an order: what can't be read, or doesn't rise, is left out."""
    rows = dict(extra)
    for _, at, pages in runs:
        last = None
        for number in range(pages):
            page = rows_in(page_at(data, at + PAGE * number))
            if page and (last is None or last < page[0][0]):
                rows.update(page)
                last = page[-1][0]
    return sorted(rows.items())


# ---- directories: a kind, three numbers, trees with their names, offsets and lengths, and runs


def directory_bytes(directory):
    kind, numbers, trees, runs = directory
    data = big(KINDS.index(kind), 1) + b"".join(big(number, 8) for number in numbers) + big(len(trees), 2)
    data += b"".join(big(len(name), 1) + name + big(at, 8) + big(size, 8) for name, at, size in trees)
    return data + big(len(runs), 2) + b"".join(big(order, 1) + big(at, 8) + big(pages, 8) for order, at, pages in runs)


def directory_in(data):
    """The directory with these bytes, if there is one."""
    reader = Reader(data)
    kind, numbers = reader.number(1), tuple(reader.number(8) for _ in range(3))
    trees = [(reader.counted(1), reader.number(8), reader.number(8)) for _ in range(reader.number(2))]
    runs = [(reader.number(1), reader.number(8), reader.number(8)) for _ in range(reader.number(2))]
    if kind >= len(KINDS) or not all(is_name(name) for name, _, _ in trees):
        return None
    fits = all(order < 3 for order, _, _ in runs) and all(a[:2] < b[:2] for a, b in zip(runs, runs[1:]))
    directory = KINDS[kind], numbers, trees, runs
    return directory if fits and directory_bytes(directory) == data else None


# ---- lines


def hex_of(data):
    return data.hex(" ")


def short(data):
    """The bytes as words, one for each byte, which says how often the byte comes where that isn't once."""
    words, at = [], 0
    while at < len(data):
        count = len(data[at:]) - len(data[at:].lstrip(data[at : at + 1]))
        words.append(data[at : at + 1].hex() + ("*%d" % count if count > 1 else ""))
        at += count
    return " ".join(words)


def row_text(row):
    key, value = row
    return (short(key) + " = " + short(value)).strip()


def rows_text(rows):
    if rows is None:
        return "not a page of rows"
    return "; ".join(map(row_text, rows)) or "none"


def found_text(page, key):
    rows = rows_in(page)
    found = greatest(rows or [], key)
    return row_text(found) if found else rows_text(rows if rows is None else [])


def first_text(page):
    """The key of the first row, of which it alone matters that it lies in the page."""
    if page[:2] == b"\0\0":
        return "none"
    key = Reader(page[2:]).counted(2)
    return short(key) if len(key) == number_in(page[2:4]) else "not a page of rows"


def quoted(raw):
    """A place or label as it is, or in quotation marks where one of its characters needs them."""
    if not any(ord(c) <= 32 or c in '";{}:,' for c in raw):
        return raw
    escapes = {'"': '\\"', "\\": "\\\\", "\n": "\\n", "\t": "\\t"}
    return '"' + "".join(escapes.get(c) or ("\\u%04x" % ord(c) if c < " " else c) for c in raw) + '"'


def place_text(place):
    labels = [label.decode().replace("~", "~0").replace("/", "~1") for label in place[1:]]
    return quoted("/".join([place[0].decode()] + labels))


def record_text(record, between):
    tid, letter, place, source = record
    line = f"{tid} {letter.decode()} {place_text(place)}"
    return line + between + place_text(source) if source else line


def read_text(order, row):
    found = ORDERS[order][1](*row)
    if found is None:
        return "none"
    return record_text(found, " ") if order != "loser" else f"{place_text(found[0])} {found[1]}"


def where_new(texts):
    """Numbers from 0 on with their texts, but for those that have the text of the number before."""
    lines = []
    for number, text in enumerate(texts):
        if number == 0 or text != texts[number - 1]:
            lines.append(f"{number} {text}")
    return lines


def with_byte(data, at, byte):
    return data[:at] + bytes([byte]) + data[at + 1 :]


def altered_lines(page, key):
    """What the page is with each of its bytes as its complement, as 0 and as 1."""

    def told(page):
        return rows_text(rows_in(page)) + " | " + found_text(page, key)

    def text(page, at):
        changed = [told(with_byte(page, at, byte)) for byte in (255 - page[at], 0, 1)]
        return ", ".join("the same" if other == told(page) else other for other in changed)

    return where_new([text(page, at) for at in range(PAGE)])


def varied_lines(order, row):
    """For each byte of the key, and then of the value, with which bytes in its place the row can be read."""
    lines, size = [], len(row[0])
    for at in range(size + len(row[1])):
        texts = []
        for byte in range(256):
            other = with_byte(row[0] + row[1], at, byte)
            texts.append("no" if ORDERS[order][1](other[:size], other[size:]) is None else "yes")
        lines.append(f"{at}: " + ", ".join(where_new(texts)))
    return lines


# ---- the table


def part(key, text, out):
    return [key] + ["| " + line for line in text] + ["out"] + ["| " + line for line in out]


def place(text, name="T"):
    return (name.encode(), *[label.encode() for label in text.split("/")[1:]])


T, S = place(""), place("", "S")
LONG = (b"T", *[b"x" * 255] * 3, b"x" * 254)
DEEP = (b"T", *[b""] * 64)

# by their order as places, each of which a record has
PLACES = [T] + [place(text) for text in ("/", "/\0", "/\0/a", "/\0\1", "/\0ÿ", "/\1", "/ ", "/a", "/a/", "/a/b", "/a\0", "/a\0b", "/ab", "/é", "/\U0010ffff")]

RECORDS = [
    (1, b"I", T, None),
    (2, b"D", place("/a"), None),
    (3, b"K", place("/a/b"), None),
    (4, b"C", place("/a"), S),
    (5, b"C", place("/a"), place("/a/b", "S1")),
    (6, b"C", place("/a"), place("/a")),
    (7, b"C", place("/a"), (b"S" * 32, *[b"x" * 255] * 3, b"x" * 223)),
    (8, b"I", DEEP, None),
    (9, b"I", LONG, None),
    (10, b"C", place("/\0"), place("/\0ÿ\1", "S")),
    (0, b"I", place("/zero"), None),
    (2**64 - 1, b"I", place("/last"), None),
]
LOSSES = [(T, 1), (place("/a"), 2), (place("/a\0/b"), 2**64 - 1), (DEEP, 0), (LONG, 2**63)]

KEY = place_key(place("/a"))
ONE = big(1, 8)

# by their order, rows that are of no record or loss, each with what is wrong
UNREAD = {
    "place": [
        ("seven bytes of a Tid", (KEY + ONE[1:], b"I")),
        ("nine bytes of a Tid", (KEY + b"\0" + ONE, b"I")),
        ("no key", (b"", b"I")),
        ("a Tid alone", (ONE, b"I")),
        ("a place of a source", (place_key(S) + ONE, b"I")),
        ("a name that begins with T", (b"TT" + KEY[1:] + ONE, b"I")),
        ("a place without its end", (KEY[:-2] + ONE, b"I")),
        ("a place with its end twice", (KEY + b"\0\0" + ONE, b"I")),
        ("a label that goes on after a zero", (b"T\0\1a\0\2\0\1\0\0" + ONE, b"I")),
        ("a label that isn't UTF-8", (place_key((b"T", b"\xc3")) + ONE, b"I")),
        ("a label of 256 bytes", (place_key((b"T", b"x" * 256)) + ONE, b"I")),
        ("65 labels", (place_key((b"T", *[b""] * 65)) + ONE, b"I")),
        ("a place of one byte more than a place may have", (place_key((b"T", *[b"x" * 255] * 4)) + ONE, b"I")),
        ("no value", (KEY + ONE, b"")),
        ("another letter", (KEY + ONE, b"J")),
        ("a byte after the letter", (KEY + ONE, b"I\0")),
        ("a copy without its source", (KEY + ONE, b"C")),
        ("a source of no copy", (KEY + ONE, b"I" + place_bytes(S))),
        ("a source that is cut short", (KEY + ONE, b"C" + place_bytes(place("/a", "S"))[:-1])),
        ("a byte after a source", (KEY + ONE, b"C" + place_bytes(S) + b"\0")),
        ("a source without a name", (KEY + ONE, b"C\0\0")),
        ("a source of one byte more than a place may have", (KEY + ONE, b"C" + place_bytes((b"S", *[b"x" * 255] * 4)))),
        ("the row of the order by step", (ONE + KEY, b"I")),
    ],
    "step": [
        ("seven bytes of a Tid", (ONE[1:] + KEY, b"I")),
        ("a Tid alone", (ONE, b"I")),
        ("no key", (b"", b"I")),
        ("a place without its end", (ONE + KEY[:-2], b"I")),
        ("a byte after the place", (ONE + KEY + b"\0", b"I")),
        ("no value", (ONE + KEY, b"")),
        ("a copy without its source", (ONE + KEY, b"C")),
        ("the row of the order by place", (KEY + ONE, b"I")),
    ],
    "loser": [
        ("a value", (KEY + ONE, b"D")),
        ("seven bytes of a Tid", (KEY + ONE[1:], b"")),
        ("a place of a source", (place_key(S) + ONE, b"")),
        ("no key", (b"", b"")),
    ],
}

# by their order, rows of which each byte is varied
VARIED = {
    "place": [row_by_place((258, b"C", place("/é\0"), place("/b", "S")))],
    "step": [row_by_step((1, b"D", place("/"), None))],
    "loser": [row_by_loser((T, 1))],
}


def order_cases(order):
    lost = order == "loser"
    things = LOSSES if lost else RECORDS + [(40 + i, b"I", p, None) for i, p in enumerate(PLACES)]
    write = ORDERS[order][0]
    rows = [write(thing) for thing in things]
    texts = [f"{place_text(p)} {tid}" for p, tid in things] if lost else [record_text(r, " < ") for r in things]
    yield f"rows in the order by {order}", part("rows " + order, texts, map(row_text, rows))
    yield f"rows that are read, by {order}", part("records " + order, map(row_text, rows), [read_text(order, r) for r in rows])
    for name, row in UNREAD[order]:
        yield f"{name}, by {order}", part("records " + order, [row_text(row)], [read_text(order, row)])
    for row in VARIED[order]:
        yield f"each byte of a row, by {order}", part("varied " + order, [row_text(row)], varied_lines(order, row))


FIVE = [(b"a", b""), (b"a\0", b"I"), (b"b\0\1", b"C\1S\0"), (b"ba", b"\0\0"), (b"z", b"\1\xff")]
FULL = [(b"a", b"x" * 2000), (b"b", b"y" * 2000), (b"c", b"z" * (PAGE - 4017))]
LARGEST = (b"k" * 2000, b"v" * 2090)
RECORD_ROWS = [row_by_place((3, b"I", p, None)) for p in PLACES]


def drawn(seed, count):
    """So many rows whose keys rise."""
    draw = random.Random(seed)
    keys = {bytes(draw.choice(b"\0\1a\xff") for _ in range(draw.randint(0, 12))) for _ in range(count)}
    return [(key, draw.randbytes(1) * draw.randint(0, 120)) for key in sorted(keys)]


def raw(rows, count=None):
    """The bytes of rows, with another number of them, whatever their keys are."""
    return big(len(rows) if count is None else count, 2) + b"".join(map(row_bytes, rows))


# each with its name and the bytes at its front, after which zeros come
PAGES = [
    ("a page without rows", b""),
    ("a page of five rows", raw(FIVE)),
    ("a page of an empty row", raw([(b"", b"")])),
    ("an empty key, and others after it", raw([(b"", b"x"), (b"\0", b"")])),
    ("a page of rows of records", raw(RECORD_ROWS)),
    ("a page without zeros at its end", raw(FULL)),
    ("a row of the largest size", raw([LARGEST])),
    ("one row too many is counted", raw(FIVE, 6)),
    ("one row too many is counted of a page without zeros", raw(FULL, 4)),
    ("many rows too many are counted", raw(FIVE, 65535)),
    ("one row too few is counted", raw(FIVE, 4)),
    ("no row is counted", raw(FIVE, 0)),
    ("rows are counted of a page of zeros", raw([], 2)),
    ("keys that fall", raw([(b"b", b""), (b"a", b"")])),
    ("the last key falls", raw(FIVE + [(b"y", b"")])),
    ("a key comes twice", raw([(b"a", b"1"), (b"a", b"2")])),
    ("a row comes twice", raw([(b"a", b"1"), (b"a", b"1")])),
    ("an empty key comes twice", raw([(b"", b""), (b"", b"")])),
    ("a key falls to its own front", raw([(b"ab", b""), (b"a", b"")])),
    ("keys that compare by their bytes as numbers", raw([(b"\x7f", b""), (b"\x80", b"")])),
    ("a first key that goes past the end", big(1, 2) + big(4093, 2)),
    ("a first key that goes up to the end", big(1, 2) + big(4092, 2)),
    ("a first key that goes up to a last value", big(1, 2) + big(4090, 2) + b"k"),
    ("a first key of the greatest length", big(1, 2) + big(65535, 2)),
    ("a later key that goes past the end", raw(FIVE, 6) + big(5000, 2)),
    ("a later key that goes one byte past the end", raw(FIVE, 6) + big(PAGE - 2 - len(raw(FIVE)) - 1, 2) + b"z"),
    ("a value that goes past the end", raw(FIVE, 6) + big(2, 2) + b"zz" + big(5000, 2)),
    ("a value that goes one byte past the end", raw([], 1) + big(1, 2) + b"k" + big(4090, 2)),
    ("a value that goes up to the end", raw([], 1) + big(1, 2) + b"k" + big(4089, 2)),
    ("only one byte of a length", raw([(b"k", b"v" * 4088)], 2) + b"\0"),
    ("a key without a length after it", raw([], 1) + big(4091, 2) + b"k" * 4091),
    ("a byte other than zero after the rows", raw(FIVE) + b"\1"),
    ("a byte other than zero after zeros", raw(FIVE) + bytes(100) + b"\xff"),
    ("a byte other than zero at the end", raw(FIVE).ljust(PAGE - 1, b"\0") + b"\1"),
    ("a byte other than zero after no row", bytes(PAGE - 1) + b"\1"),
]

# rows that are put into pages, each list with its name
FILLED = [
    ("no row", []),
    ("five rows", FIVE),
    ("a row of the largest size", [LARGEST]),
    ("a row that just fits", FULL),
    ("a row that doesn't fit by one byte", FULL[:2] + [(b"c", FULL[2][1] + b"z")]),
    ("a row after a page without zeros", FULL + [(b"d", b"")]),
    ("each row needs a page", [(b"a", LARGEST[1]), LARGEST, (b"l", LARGEST[1])]),
    ("150 drawn rows", drawn(1, 150)),
    ("rows without values", [(big(number, 2), b"") for number in range(300)]),
    ("a key that falls", [(b"a", b""), (b"c", b""), (b"b", b""), (b"d", b"")]),
    ("a key that comes twice", [(b"a", b""), (b"a", b"")]),
    ("a row of one byte too many", [(b"a", b""), (b"b", b"v" * 4090)]),
]


def keys_to_find(rows):
    """Keys below, at, between and above those of the rows."""
    keys = {b"", b"\0", b"a", b"b\0", b"m", b"\xff"}
    for key, _ in rows[:8]:
        keys |= {key, key + b"\0", key[:-1]}
    return sorted(key for key in keys if len(key) < 64)


def filled_lines(rows):
    """The pages, up to a row that can't be put behind those before it."""
    taken = 0
    while taken < len(rows) and fits(rows[taken]) and rise(rows[: taken + 1]):
        taken += 1
    pages = [page_of(page) for page in cut(rows[:taken])]
    if taken < len(rows):
        return [short(page) for page in pages[:-1]] + ["not the next rows"]
    return [short(page) for page in pages] or ["none"]


def page_cases():
    for name, front in PAGES:
        page = front.ljust(PAGE, b"\0")
        keys = keys_to_find(rows_in(page) or FIVE)
        lines = part("page", [short(front)], [rows_text(rows_in(page)), "first " + first_text(page)])
        asked = [short(front)] + [short(key) for key in keys]
        yield name, lines + part("find", asked, [short(key) + ": " + found_text(page, key) for key in keys])
    for name, rows in FILLED:
        yield "pages: " + name, part("pages", map(row_text, rows), filled_lines(rows))
    page = raw(FIVE)
    yield "each byte of a page of five rows", part("altered " + short(b"bb"), [short(page)], altered_lines(page_of(FIVE), b"bb"))


def pages_table():
    lines = ["# Pages of rows, and the rows of records in three orders. Made by model/pages.py."]
    cases = [case for order in ORDERS for case in order_cases(order)] + list(page_cases())
    for name, parts in cases:
        lines += ["", "case " + name] + list(parts)
    return lines


def check():
    """What is written is read back, and keys rise as places do."""
    assert [place_of_key(place_key(p)) for p in PLACES] == PLACES and sorted(PLACES) == PLACES
    assert sorted(map(place_key, PLACES)) == [place_key(p) for p in PLACES]
    rows = drawn(2, 300)
    data = run_bytes(rows)
    run = (0, 0, len(data) // PAGE)
    assert rows_of_run(data, run) == rows == merged({}, data, [run]) and [r for page in cut(rows) for r in page] == rows
    directory = ("ht", (9, 4, 12), [(b"T", 219, 7), (b"S1", 192, 19)], [(0, 226, 1), (0, 9000, 2), (2, 4322, 1)])
    data = directory_bytes(directory)
    assert directory_in(data) == directory and directory_in(data + b"\0") is None and directory_in(data[:-1]) is None


def main():
    check()
    with open(os.path.join(sys.argv[1], "pages.txt"), "w") as out:
        out.write("\n".join(pages_table()) + "\n")


if __name__ == "__main__":
    main()
