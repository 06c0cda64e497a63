#!/usr/bin/env python3
"""A model of runs of pages, and of a store whose rows lie in them. It writes pages with `pages.py`, and knows of a look-up only
what it finds: of the rows of all runs of an order the one with the greatest key that isn't above, or those from one key to
another; and of a page that isn't one of rows only that it is met where nothing can be told without it.

What a store tells is read off its rows, one step after another.

    model/runs.py FOLDER     writes the tables of runs and of stores on pages into FOLDER
"""

import os
import random
import sys

from draw import Script, spelled
from pages import FIVE, PAGE, between, cut, drawn, first_text, greatest, page_of, part, raw, row_by_loser
from pages import row_by_place, row_by_step, row_text, rows_in, rows_text, short, where_new, with_byte
from uses import Watched

KINDS = ("n", "t", "h", "ht")


def bad(at):
    return "not a page of rows, at %d" % at


def line_of(row):
    return row_text(row) if row else "none"


# ---- runs that are spelled: a list of runs, each an order and its rows


def laid(runs):
    """The pages of runs, one run after another, and the three numbers of each."""
    pages, numbers = [], []
    for order, rows in runs:
        own = cut(rows)
        numbers += [order, PAGE * len(pages), len(own)]
        pages += own
    return [page_of(page) for page in pages], numbers


def page_lines(pages):
    return ["+ " + short(page.rstrip(b"\0")) for page in pages]


def rows_of(runs, order):
    return sorted(row for other, rows in runs if other == order for row in rows)


def asked(runs, order, keys, ranges):
    """Questions of an order with their answers."""
    rows = rows_of(runs, order)
    for key in keys:
        yield "greatest %d %s" % (order, short(key)), line_of(greatest(rows, key))
    for low, high in ranges:
        yield "between %d %s = %s" % (order, short(low), short(high)), rows_text(between(rows, low, high))


def case(name, runs, orders, keys, ranges):
    pages, numbers = laid(runs)
    questions = [question for order in orders for question in asked(runs, order, keys, ranges)]
    text = page_lines(pages) + ["? " + question for question, _ in questions]
    words = " ".join(map(str, ["runs"] + numbers))
    return name, part(words, text, ["%s: %s" % both for both in questions])


def shared(rows, count, seed):
    """Rows dealt to so many runs, some of which may have none and are left out."""
    draw = random.Random(seed)
    hands = [[] for _ in range(count)]
    for row in rows:
        draw.choice(hands).append(row)
    return [hand for hand in hands if hand]


def some_keys(rows, seed, count):
    draw = random.Random(seed)
    keys = {b"", b"\xff" * 3, rows[0][0], rows[-1][0]}
    for key, _ in draw.sample(rows, min(count, len(rows))):
        keys |= {key, key + b"\0", key[:-1]}
    return sorted(keys)


def some_ranges(keys, seed, count):
    draw = random.Random(seed)
    return [(draw.choice(keys), draw.choice(keys)) for _ in range(count)] + [(keys[0], keys[-1]), (keys[-1], keys[0])]


WIDE = [(b"%03d" % number, bytes([number % 251 + 1]) * 400) for number in range(64)]


def spelled_cases():
    yield case("no run", [], [0, 2], [b"", b"a"], [(b"", b"z")])
    yield case("a run of five rows", [(0, FIVE)], [0, 1, 2], some_keys(FIVE, 1, 5), [(b"a", b"b"), (b"", b"\xff"), (b"b", b"a"), (b"a\0", b"a\0")])
    for pages in range(1, 8):
        rows = WIDE[: 9 * pages]
        keys = some_keys(rows, pages, 12)
        yield case("a run of %d pages" % len(cut(rows)), [(1, rows)], [1], keys, some_ranges(keys, pages, 6))
    for count in (2, 3, 8):
        rows = drawn(count, 200)
        keys = some_keys(rows, count, 10)
        runs = [(0, hand) for hand in shared(rows, count, count)] + [(2, FIVE)]
        yield case("%d runs that overlap, and one of another order" % count, runs, [0, 2, 1], keys, some_ranges(keys, count, 5))


# ---- pages that aren't ones of rows, each the only one of its run


def greatest_of_page(page, at, key):
    """A page whose first key is above the one looked for has no row that counts, whatever else it is."""
    first = first_text(page)
    if first == "not a page of rows":
        return bad(at)
    size = int.from_bytes(page[2:4], "big")
    if first == "none" or page[4 : 4 + size] > key:
        return "none"
    rows = rows_in(page)
    return bad(at) if rows is None else line_of(greatest(rows, key))


def between_of_page(page, at, low, high):
    rows = rows_in(page)
    return bad(at) if rows is None else rows_text(between(rows, low, high))


BAD = [
    ("a count that is too large", raw(FIVE, 6)),
    ("a count that is far too large", raw(FIVE, 65535)),
    ("a count that is too small", raw(FIVE, 4)),
    ("keys that fall", raw([(b"b", b""), (b"a", b"")])),
    ("a last key that falls", raw(FIVE + [(b"y", b"")])),
    ("a key that comes twice", raw([(b"a", b"1"), (b"a", b"2")])),
    ("a first key that goes past the end", b"\0\1" + b"\x0f\xfd"),
    ("a later key that goes past the end", raw(FIVE, 6) + b"\x13\x88"),
    ("a value that goes past the end", raw(FIVE, 6) + b"\0\2zz" + b"\x13\x88"),
    ("a byte other than zero after the rows", raw(FIVE) + b"\1"),
    ("a byte other than zero at the end", raw(FIVE).ljust(PAGE - 1, b"\0") + b"\1"),
    ("no row", b""),
    ("no row, and a byte other than zero at the end", bytes(PAGE - 1) + b"\1"),
]


def bad_cases():
    keys = [b"", b"a", b"b", b"zz"]
    ranges = [(b"", b"\xff"), (b"b", b"y")]
    for name, front in BAD:
        page = front.ljust(PAGE, b"\0")
        good = page_of(FIVE)
        text = page_lines([good, page])
        out = []
        for key in keys:
            text.append("? greatest 1 " + short(key))
            out.append("greatest 1 %s: %s" % (short(key), greatest_of_page(page, PAGE, key)))
        for low, high in ranges:
            text.append("? between 1 %s = %s" % (short(low), short(high)))
            out.append("between 1 %s = %s: %s" % (short(low), short(high), between_of_page(page, PAGE, low, high)))
        text.append("? greatest 0 62")
        out.append("greatest 0 62: " + line_of(greatest(FIVE, b"b")))
        yield "a page with " + name + ", and a run beside it", part("runs 0 0 1 1 4096 1", text, out)
    for name, end in (("at the end of the file", []), ("one byte short of it", [". " + short(bytes(PAGE - 1))])):
        asked = ["greatest 0 62", "between 0 62 = 63"]
        text = page_lines([page_of(FIVE)]) + end + ["? " + question for question in asked]
        yield "a run that begins after the last page, " + name, part("runs 0 4096 1", text, ["%s: %s" % (question, bad(PAGE)) for question in asked])
    text = ["? greatest 0 62", "? reads"]
    yield "a run of a file without bytes", part("runs 0 0 1", text, ["greatest 0 62: " + bad(0), "reads: 0"])


def altered_case():
    page, key = page_of(FIVE), b"bb"

    def told(page):
        return greatest_of_page(page, 0, key) + " | " + between_of_page(page, 0, b"", b"\xff" * PAGE)

    def text(at):
        changed = [told(with_byte(page, at, byte)) for byte in (255 - page[at], 0, 1)]
        return ", ".join("the same" if other == told(page) else other for other in changed)

    return "each byte of a run of five rows", part("altered_run " + short(key), [short(page.rstrip(b"\0"))], where_new([text(at) for at in range(PAGE)]))


# ---- what is kept: the last 256 pages that were looked at


def kept_case(count):
    rows = [(b"%03d" % number, b"") for number in range(count)]
    pages, numbers = laid([(0, [row]) for row in rows])
    text, out, kept, reads = page_lines(pages), [], [], 0
    for number in (0, 1, 2):
        for key in (b"999", b"%03d" % (count // 2)):
            for page in range(count):
                reads += page not in kept
                kept = ([page] + [other for other in kept if other != page])[:256]
            text += ["? greatest 0 " + short(key), "? reads"]
            out += ["greatest 0 %s: %s" % (short(key), line_of(greatest(rows, key))), "reads: %d" % reads]
    return "%d runs of a page each, and how often the disk is read" % count, part(" ".join(map(str, ["runs"] + numbers)), text, out)


def runs_table():
    lines = ["# What is found in runs of pages, where they are spelled and where they aren't, and which pages are read. Made by", "# model/runs.py."]
    cases = list(spelled_cases()) + list(bad_cases()) + [altered_case(), kept_case(256), kept_case(257)]
    for name, parts in cases:
        lines += ["", "case " + name] + list(parts)
    return lines


# ---- stores on pages: a record is its Tid, its letter, its place and its source, the places as tuples of texts


def told_by(kind, rows, place):
    """What the rows of one step tell of a place: of the place itself, or in h and ht of the longest place above it that has one."""
    least = 1 if kind in ("h", "ht") else len(place)
    for size in range(len(place), least - 1, -1):
        for _, letter, at, source in rows:
            if at == place[:size]:
                if letter == "C":
                    come = source + place[size:]
                    over = len(come) > 65 or len(come[0]) + sum(1 + len(a.encode()) for a in come[1:]) > 1024
                    return None if over else "from " + spelled(come)
                return {"I": "new", "D": "gone", "K": None}[letter]
    return None


def at_step(rows, tid):
    return [row for row in rows if row[0] == tid]


def change_text(kind, rows, place, t):
    if place[0] == "T":
        for tid in range(t, 0, -1):
            told = told_by(kind, at_step(rows, tid), place)
            if told:
                return "%d %s" % (tid, told)
    return "none"


def losses_text(rows, place, low, high):
    tids = [t for t in range(low + 1, high + 1) if any(r[1] == "D" and len(r[2]) == len(place) + 1 and r[2][:-1] == place for r in at_step(rows, t))]
    return "; ".join(map(str, tids)) or "none"


def record_words(record, between):
    tid, letter, place, source = record
    line = "%d %s %s" % (tid, letter, spelled(place))
    return line + between + spelled(source) if source else line


def step_text(rows, t):
    return "; ".join(record_words(row, " ") for row in at_step(rows, t)) or "none"


def raw_place(place):
    return tuple(label.encode() for label in place)


def losses_of(rows):
    """The places that lost a child in a step and aren't gone in it, each with the step, once."""
    gone = {(tid, place) for tid, letter, place, _ in rows if letter == "D"}
    return sorted({(place[:-1], tid) for tid, place in gone if len(place) > 1 and (tid, place[:-1]) not in gone})


def ordered_rows(rows):
    """The rows of records in the three orders."""
    records = [(tid, letter.encode(), raw_place(place), raw_place(source) if source else None) for tid, letter, place, source in rows]
    return (
        sorted(row_by_place(record) for record in records),
        sorted(row_by_step(record) for record in records),
        sorted(row_by_loser((raw_place(place), tid)) for place, tid in losses_of(rows)),
    )


def runs_by_step(rows, ends):
    """Runs of the rows of steps after one of these ends up to the next, for each order that has some."""
    runs = [[], [], []]
    for low, high in zip([0] + ends, ends):
        for order, own in enumerate(ordered_rows([row for row in rows if low < row[0] <= high])):
            if own:
                runs[order].append((order, own))
    return runs[0] + runs[1] + runs[2]


def store_case(name, kind, rows, last, ends, places):
    upto = ends[-1] if ends else 0
    pages, numbers = laid(runs_by_step(rows, ends))
    text = page_lines(pages) + [record_words(row, " < ") for row in rows if row[0] > upto]
    out = []

    def ask(question, answer):
        text.append("? " + question)
        out.append(question + ": " + answer)

    for tid in range(last + 2):
        ask("step %d" % tid, step_text(rows, tid))
    for place in places:
        word = spelled(place)
        for tid in range(last + 2):
            ask("%s %d" % (word, tid), change_text(kind, rows, place, tid))
        for low, high in ((0, last), (0, upto), (upto, last), (last // 2, last + 1), (last, 0)):
            ask("losses %s %d %d" % (word, low, high), losses_text(rows, place, low, high))
    words = " ".join(map(str, ["paged", kind, upto, last - upto] + numbers))
    return name, part(words, text, out)


def records_of(session):
    """The records of a session, by Tid and then by place."""
    found = [(r[0], r[1], ("T",) + tuple(r[2]), tuple(r[3]) if len(r) > 3 else None) for r in session.records]
    return sorted(found, key=lambda r: (r[0], r[2]))


def drawn_session(kind, seed, least):
    """A session of so many steps or some more."""
    script = Script(random.Random(seed), random.Random(seed + 1000), kind)
    session = script.session = Watched(kind, script.start, script.session.source)
    while session.now < least:
        script.transaction(script.draw.randint(1, 3))
    return session


def some_places(session, rows, draw):
    """Places of rows, those above them, and some below and beside them."""
    places = {("T",), ("S",), ("T", "never")} | {row[2] for row in rows}
    places |= {place[:-1] for place in places if len(place) > 1}
    places |= {place + ("never",) for place in draw.sample(sorted(places), 2)}
    return sorted(draw.sample(sorted(places), min(12, len(places))) + [("T",)]) if len(places) > 12 else sorted(places)


def store_cases():
    for number, kind in enumerate(KINDS):
        for count in range(9):
            seed = 100 * number + count
            draw = random.Random(seed)
            session = drawn_session(kind, seed, count + 2)
            last = session.now
            rows = records_of(session)
            upto = draw.randint(count, last)
            ends = sorted(draw.sample(range(1, upto), count - 1)) + [upto] if count else []
            places = sorted(set(some_places(session, rows, draw)))
            yield store_case("a store in kind %s with %d ends of runs, drawn" % (kind, count), kind, rows, last, ends, places)


def paged_table():
    lines = ["# What stores tell whose rows lie on the pages of runs up to a step, and in memory after it: of drawn rows in each", "# kind, every step and some places at every Tid. Made by model/runs.py."]
    for name, parts in store_cases():
        lines += ["", "case " + name] + list(parts)
    return lines


def main():
    for name, table in (("runs.txt", runs_table()), ("paged.txt", paged_table())):
        with open(os.path.join(sys.argv[1], name), "w") as out:
            out.write("\n".join(table) + "\n")


if __name__ == "__main__":
    main()
