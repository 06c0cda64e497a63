#!/usr/bin/env python3
"""Works out calls from the bytes of stores, `verify` among them, and makes cases of what it writes.

    verify.py FILE ..     plays files of cases and documents as calls.py does, on the bytes of stores, and prints what differs
    verify.py --changed   writes the cases of data/changed.txt: each byte of a store with another value
    verify.py --cut       writes those of data/cut.txt: stores cut to each shorter length
    verify.py --spoiled   writes those of data/spoiled.txt: drawn stores whose records aren't those of their operations
    verify.py --drawn N T H HT
                          writes those of data/verified.txt: so many of the drawn sessions of each kind, on stores

A store is its bytes. They are read by the grammar of `storage.py`. Each commit is replayed over trees whose places carry
their whole past (`draw.py`), and the records that come of it are compared with those that the commit has. What a store has
after a call is spelled here by docs/FORMAT.md.
"""
import random
import sys
from itertools import zip_longest

import calls
import draw
import storage
from calls import KINDS, Ended, Session, Store, World, quoted, record_text
from draw import carrying_themselves

FIRST_FRAME = 192
NODES_MAX, WEIGHT_MAX, PLACE_WEIGHT = 1_048_576, 33_554_432, 16


class NoStore(Exception):
    """The bytes are no store, from this offset on."""


# Spelling entries.


def label_bytes(label):
    data = label.encode()
    return bytes([len(data)]) + data


def path_bytes(path):
    return bytes([len(path)]) + b"".join(map(label_bytes, path))


def place_bytes(place):
    return label_bytes(place[0]) + path_bytes(place[1:])


def content_bytes(content):
    words = {"node": b"\0", "null": b"\1", "false": b"\2", "true": b"\3"}
    if content in words:
        return words[content]
    if content.startswith('"'):
        text = calls.json.loads(content).encode()
        return b"\6" + len(text).to_bytes(4, "big") + text
    number = int(content)
    return (b"\5" if number < 0 else b"\4") + (number % 2**64).to_bytes(8, "big")


def tree_bytes(rows):
    if rows[()] != "node":
        return content_bytes(rows[()])
    children = {}
    for path, content in rows.items():
        if path:
            children.setdefault(path[0], {})[path[1:]] = content
    data = b"\0" + len(children).to_bytes(4, "big")
    return data + b"".join(label_bytes(a) + tree_bytes(children[a]) for a in sorted(children))


def operation_bytes(op):
    verb, place, what = op[:3]
    if verb == "del":
        return b"\2" + path_bytes(place[1:]) + label_bytes(what)
    if verb == "copy":
        return b"\3" + place_bytes(what) + path_bytes(place[1:])
    head = path_bytes(place[1:]) + label_bytes(what)
    if len(op[3]) == 1:
        return b"\1" + head + content_bytes(op[3][()])
    return b"\4" + head + tree_bytes(op[3])


def record_bytes(record):
    source = place_bytes(record[3]) if len(record) > 3 else b""
    return record[0].to_bytes(8, "big") + record[1].encode() + path_bytes(record[2]) + source


def counted(parts):
    return len(parts).to_bytes(4, "big") + b"".join(parts)


def batch_bytes(ops, records):
    return counted(list(map(operation_bytes, ops))) + counted(list(map(record_bytes, records)))


def start_body(kind, tree):
    return b"\1" + bytes([KINDS.index(kind)]) + tree_bytes(tree)


def load_body(name, tree):
    return b"\2" + label_bytes(name) + tree_bytes(tree)


def commit_body(curator, moment, ops, records):
    return b"\4" + label_bytes(curator) + moment.to_bytes(8, "big") + batch_bytes(ops, records)


# Reading entries.


def rows_in(tree):
    """The rows of a tree that `storage.py` has read."""
    form, value = tree
    if form:
        return {(): quoted(value.decode()) if form == 6 else storage.value_text(form, value)}
    rows = {(): "node"}
    for label, child in value or []:
        rows.update({(label.decode(), *rest): content for rest, content in rows_in(child).items()})
    return rows


def labels_in(path):
    return tuple(label.decode() for label in path)


def place_in(name, path):
    return (name.decode(), *labels_in(path))


def operation_in(op):
    if op[0] == 3:
        return ("copy", ("T", *labels_in(op[2])), place_in(*op[1]))
    place, label = ("T", *labels_in(op[1])), op[2].decode()
    return ("del", place, label) if op[0] == 2 else ("ins", place, label, rows_in(op[3]))


def record_in(record):
    tid, letter, path, source = record
    found = (tid, letter.decode(), labels_in(path))
    return (*found, place_in(*source)) if source else found


def version_in(data):
    """The version of a file whose header is one, without an open slot."""
    text = storage.header_text(data)
    if not text.startswith("version"):
        raise NoStore(0)
    version, *slots = text.split(", ")
    first, second = (-1 if slot == "closed" else int(slot.split()[0]) for slot in slots)
    if max(first, second) >= 0:
        raise NoStore(64 if first > second else 128)
    return int(version.split()[1])


class Sources(dict):
    """The sources of a store, each of which adds an entry."""

    def __init__(self, store):
        self.store = store

    def __setitem__(self, name, tree):
        super().__setitem__(name, tree)
        self.store.added.append(load_body(name, tree))


class FileStore(Store):
    """A store as it is read from bytes: with the entries that are added, and the first difference between its records and
    those of the replay."""

    def __init__(self, kind, tree):
        super().__init__(kind, tree)
        self.sources = Sources(self)
        self.added, self.difference = [], None
        self.stored = 0

    def commit(self, ops, curator, moment):
        count = len(self.records)
        tids = super().commit(ops, curator, moment)
        self.added.append(commit_body(curator, moment, ops, self.records[count:]))
        return tids

    def replay(self, at, curator, moment, ops, records):
        """A commit whose frame stands at this offset."""
        session = Session(self, "", World())
        session.work = carrying_themselves(self.tree)
        for op in ops:
            if session.cause(op):
                raise NoStore(at)
            self.apply(session.work, op)
            if is_too_large(session.work):
                raise NoStore(at)
        count = len(self.records)
        low, high = Store.commit(self, ops, curator, moment)
        if any(not low <= record[0] <= high for record in records):
            raise NoStore(at)
        self.stored += len(records)
        if not self.difference:
            pairs = zip_longest(records, self.records[count:])
            self.difference = next(((at, *pair) for pair in pairs if pair[0] != pair[1]), None)


def is_too_large(work):
    contents = [content for content, _ in work.values()]
    labels = sum(calls.size(path[-1]) for path in work if path)
    texts = sum(calls.size(calls.json.loads(it)) for it in contents if it.startswith('"'))
    return len(work) > NODES_MAX or PLACE_WEIGHT * len(work) + labels + texts > WEIGHT_MAX


def read_store(data):
    """The store that stands in the bytes, and the offset of the gate at its end."""
    version = version_in(data)
    frames, end, is_closed = storage.frames_in(data)
    store = None
    for at, tag, body in frames:
        if tag == 0x45:
            if storage.stop_of(body) is not None:
                raise NoStore(at)
            store = with_entry(store, at, version, storage.entry_in(body)[0])
        elif store is None:
            raise NoStore(at)
    if not is_closed or store is None:
        raise NoStore(end)
    store.added = []
    return store, end


def with_entry(store, at, version, entry):
    form, first, second = entry
    if (form == 1) != (store is None) or form == 4 and version == 1:
        raise NoStore(at)
    if form == 1:
        return FileStore(KINDS[first], rows_in(second))
    if form == 2:
        name = first.decode()
        if name == "T" or name in store.sources or len(store.sources) == 32:
            raise NoStore(at)
        store.sources[name] = rows_in(second)
        return store
    curator, moment = first or (b"", 0)
    ops, records = second
    store.replay(at, curator.decode(), moment, list(map(operation_in, ops)), list(map(record_in, records)))
    return store


def verdict(data):
    """What `verify` writes of these bytes, and its status."""
    try:
        store, _ = read_store(data)
    except NoStore as cause:
        return "error: not a store at %d" % cause.args[0], 6
    if not store.difference:
        return "agrees %d" % store.stored, 0
    at, *pair = store.difference
    return "differs at %d: stored %s, expected %s" % (at, *(record_text(it) if it else "none" for it in pair)), 1


# Calls.


class Disks(World):
    """The stores of a case as bytes."""

    PASSED_OVER = {"bare", "pieces", "room"}

    def __init__(self, folder=None):
        self.data, self.whole, self.last = {}, {}, "s"
        super().__init__(folder)

    def spoil(self, key, rest, text):
        number, _, to = rest.partition(" ")
        if key == "store":
            self.data["s"], self.last = storage.words_of(text.decode()), "s"
            self.whole.pop("s", None)
            return
        data = self.whole.setdefault(self.last, self.data[self.last])
        at = int(number)
        if key == "cut":
            self.data[self.last] = data[:at]
        elif at < len(data):
            byte = bytes([255 - data[at]]) if to == "complement" else bytes.fromhex(to)[:1]
            self.data[self.last] = data[:at] + byte + data[at + 1 :]

    def differs(self, key, rest):
        number, _, digits = rest.partition(" ")
        data, wanted = self.data.get(self.last, b""), storage.words_of(digits)
        found = data[int(number) :][: len(wanted)]
        if key == "size" and len(data) != int(number):
            return "size %d, wanted %s" % (len(data), number)
        if key == "bytes" and found != wanted:
            return "the bytes from %s on are %s" % (number, found.hex(" "))
        return None

    def begin(self, words):
        super().begin(words)
        if "s" in self.files:
            self.data.setdefault("s", self.files["s"])

    def opened(self, name):
        self.touch("disk", 5)
        try:
            return read_store(self.data.get(name, b""))[0]
        except NoStore as cause:
            raise Ended(6, "error: not a store at %d" % cause.args[0])

    def on_store(self, command, store, words):
        name = self.words[1]
        data = self.data[name]
        if command in ("run", "commit", "share"):
            data = data[:6] + b"\1" + data[7:]
        try:
            if command == "verify":
                self.lines.append(verdict(data)[0])
            else:
                super().on_store(command, store, words)
        finally:
            end = read_store(data)[1]
            for body in store.added:
                frame = storage.framed(body)
                data = data[:end] + frame + b"\0" + data[end + len(frame) + 1 :]
                end += len(frame)
            self.data[name], self.last = data, name

    def make(self):
        if self.made or not calls.fit(self.words) or self.words[0] != "init":
            super().make()
            return
        name = self.words[1]
        self.stores = {} if storage.header_text(self.data.get(name, b"")) == "vacant" else {name: None}
        super().make()
        made = self.stores.get(name)
        if made:
            tree = {path: content for path, (content, _) in made.tree.items()}
            self.data[name], self.last = storage.store(1, [start_body(made.kind, tree)]), name


# Cases.


def text(lines):
    return "\n".join("| " + line for line in lines)


HEADERS = {storage.store(1, [])[:-1]: "01 4350444201 01 00*185", storage.store(0, [])[:-1]: "01 4350444201 00*186"}


def spelled(data):
    """The bytes as words of a store, each frame on a line of its own."""
    ends = [at for at, _, _ in storage.frames_in(data)[0]] + [storage.frames_in(data)[1], len(data)]
    header = HEADERS.get(data[:FIRST_FRAME]) or data[:FIRST_FRAME].hex(" ")
    return [header] + [data[low:high].hex() for low, high in zip(ends, ends[1:]) if low < high]


def session_bytes(kind, source, script, *curator):
    """The bytes of a store of this kind after the statements, with the file s.json."""
    world = Disks()
    world.files["s.json"] = source
    for words, given in (["init", "s", kind], b""), (["run", "s", *curator], script.encode()):
        world.begin(words)
        world.input, world.moments = given, [7, 8, 9] if curator else []
        world.make()
        assert world.status == 0, world.output
    return world.data["s"]


SMALL = 'load S json "s.json"; ins {a : null} into T; commit; copy S/x into T/a; commit;'
SIX = """load S json "s.json"; ins {a : {b : 1}} into T; commit; copy T/a into T/a/b; commit; ins {c : null} into T;
copy S/y into T/c; commit; del b from T/a; commit; ins {t : {}} into T; copy T/c into T/t; del c from T; ins {c : {z : -2}} into T;
copy T/t/z into T/c/z; del t from T; commit; copy T/c into T; commit;"""


def changed_table(name, data, low, values):
    print("\ntable %s\nsince 10\nstore\n%s" % (name, text(spelled(data))))
    print("change @1\nwords verify s\nout\n| @2\nstatus @3")
    for at in range(low, len(data)):
        for value in values:
            value = "%02x" % (data[at] ^ 1) if value == "lowest bit" else value
            byte = 255 - data[at] if value == "complement" else int(value, 16)
            if byte != data[at]:
                line, status = verdict(data[:at] + bytes([byte]) + data[at + 1 :])
                print("- %d %s -> %s -> %d" % (at, value, line, status))


def changed():
    print("# Each byte of a store with another value, as `model/verify.py --changed` prints them.")
    name = "each byte of a store with two commits in the kind n, with its complement in its place"
    changed_table(name, session_bytes("n", b'{"x":5}', SMALL), 0, ["complement"])
    name = "each byte of the same store in version 1, with its complement in its place"
    changed_table(name, dict(storage.FILES)["a store of version 1 with a source and two commits"], 0, ["complement"])
    six = {kind: session_bytes(kind, b'{"x":5,"y":{"z":"w"}}', SIX, "ann") for kind in KINDS}
    name = "each byte of a store with six commits in the kind n, with its complement, 00 and 01 in its place"
    changed_table(name, six["n"], 0, ["complement", "00", "01"])
    for kind in KINDS:
        name = "each byte from the first frame on of a store with six commits in the kind %s, with its lowest bit turned" % kind
        changed_table(name, six[kind], FIRST_FRAME, ["lowest bit"])


CALLS = ["run s", "query s stats", "log s", "verify s"]


def cut_table(name, data):
    print("\ntable %s, cut to each shorter length\nsince 10\nstore\n%s\ncut @1" % (name, text(spelled(data))))
    for words in CALLS:
        print("words %s\nout\n| @2\nstatus 6\nsize @1" % words)
    for length in range(len(data)):
        line, status = verdict(data[:length])
        assert status == 6
        print("- %d -> %s" % (length, line))


def cut():
    print("# Stores cut to each shorter length, as `model/verify.py --cut` prints them.")
    files = dict(storage.FILES)
    cut_table("a store with one commit", files["the same after a commit"])
    cut_table("a store of version 1 with one commit", files["the store after a commit in version 1"])


# What is done to the records of a commit. Each gives other records, or None where nothing can be done.


def left_out(rng, records, tids):
    if records:
        at = rng.randrange(len(records))
        return records[:at] + records[at + 1 :]


def twice(rng, records, tids):
    if records:
        at = rng.randrange(len(records))
        return records[:at] + records[at : at + 1] + records[at:]


def exchanged(rng, records, tids):
    if len(records) > 1:
        at = rng.randrange(len(records) - 1)
        return records[:at] + [records[at + 1], records[at]] + records[at + 2 :]


def with_other(rng, records, change):
    """One of the records is another."""
    if records:
        at = rng.randrange(len(records))
        return records[:at] + [change(*records[at])] + records[at + 1 :]


def drawn_place(rng):
    labels = [rng.choice(draw.LABELS) for _ in range(rng.randint(0, 3))]
    return (rng.choice(["T", "S"]), *labels)


def of_letter(rng, tid, letter, path, source):
    return (tid, letter, path, source or drawn_place(rng)) if letter == "C" else (tid, letter, path)


def other_letter(rng, records, tids):
    def change(tid, letter, path, source=None):
        return of_letter(rng, tid, rng.choice([it for it in "ICDK" if it != letter]), path, source)

    return with_other(rng, records, change)


def other_source(rng, records, tids):
    copies = [it for it in records if it[1] == "C"]
    if copies:
        one = rng.choice(copies)
        name, *labels = one[3]
        others = [("S" if name == "T" else "T", *labels), (*one[3][:-1], "z"), (*one[3], "a")]
        other = (*one[:3], rng.choice([it for it in others if it != one[3] and calls.is_name(it[0])]))
        return [other if it == one else it for it in records]


def other_place(rng, records, tids):
    def change(tid, letter, path, *source):
        return (tid, letter, rng.choice([(*path, "a"), (*path[:-1], rng.choice(draw.LABELS)), path[:-1]]), *source)

    return with_other(rng, records, change)


def other_tid(rng, records, tids):
    return with_other(rng, records, lambda tid, *rest: (tid + rng.choice([-1, 1, 1]), *rest))


def added(rng, records, tids):
    path = drawn_place(rng)[1:]
    one = of_letter(rng, rng.randint(*tids), rng.choice("ICDK"), path, None)
    if all((one[0], one[2]) != (it[0], it[2]) for it in records):
        return sorted(records + [one], key=lambda it: (it[0], it[2]))


def none_at_all(rng, records, tids):
    return [] if records else None


CHANGES = [left_out, twice, exchanged, other_letter, other_source, other_place, other_tid, added, none_at_all]
NAMES = {
    left_out: "a record is left out",
    twice: "a record stands twice",
    exchanged: "two records are exchanged",
    other_letter: "a record has another letter",
    other_source: "a record has another source",
    other_place: "a record has another place",
    other_tid: "a record has another Tid",
    added: "a record is added",
    none_at_all: "all records of a commit are left out",
}


def bodies_in(data):
    return [body for _, _, body in storage.frames_in(data)[0]]


def with_records(body, records):
    old = [record_in(it) for it in storage.entry_in(body)[0][2][1]]
    return body[: -len(counted(list(map(record_bytes, old))))] + counted(list(map(record_bytes, records)))


def spoiled_commit(rng, data, changes):
    """The bytes with other records in one of the commits, and what was done to them; the bytes alone where nothing could be."""
    bodies = bodies_in(data)
    commits = [number for number, body in enumerate(bodies) if body[0] == 4]
    number, change = rng.choice(commits), rng.choice(changes)
    records = [record_in(it) for it in storage.entry_in(bodies[number])[0][2][1]]
    tids = [it[0] for it in records] or [1]
    other = change(rng, records, (min(tids), max(tids)))
    if other is None:
        return data, None
    bodies[number] = with_records(bodies[number], other)
    return storage.store(1, bodies), NAMES[change]


def drawn_bytes(kind, rng):
    """A drawn session of a few short transactions, as the bytes of its store."""
    script = draw.Script(rng, rng, kind)
    for _ in range(rng.randint(2, 3)):
        script.transaction(rng.randint(1, 5))
    world = Disks()
    world.files = {"t.json": draw.as_json(script.start).encode(), "s.json": draw.as_json(script.session.source).encode()}
    told = [it for it in script.statements if not it.startswith("records")]
    for words, given in (["init", "s", kind, "t.json"], ""), (["run", "s"], "".join(it + ";" for it in told)):
        world.begin(words)
        world.input = given.encode()
        world.make()
        assert world.status == 0, world.output
    return world.data["s"]


def spoiled_case(kind, rng, number):
    data = drawn_bytes(kind, rng)
    what = number % 12
    if what == 9:
        other = {"n": "h", "h": "n", "t": "ht", "ht": "t"}[kind]
        data, name = data[:203] + bytes([KINDS.index(other)]) + data[204:], "the records of a store of the kind " + kind
        kind = other
    elif what == 10:
        data, one = spoiled_commit(rng, data, [left_out, other_letter, added])
        data, other = spoiled_commit(rng, data, [left_out, other_letter, added])
        name = one and other and "two commits are changed: %s, and then %s" % (one, other)
    elif what == 11:
        data, name = spoiled_commit(rng, data, [left_out, other_letter, added])
        data = data[:-1] + rng.choice([b"\1", b"\1E", b"\1E" + bytes(7) + b"\1\1\0"])
        name = name and name + ", and the last frame is broken"
    else:
        data, name = spoiled_commit(rng, data, [CHANGES[what]])
    return kind, data, name


def spoiled():
    print("# Drawn stores whose records aren't those of their operations, as `model/verify.py --spoiled` prints them.")
    for kind in KINDS:
        seed = 0
        for number in range(36):
            data, name = b"", None
            while name is None or len(data) > 1000:
                seed += 1
                shown, data, name = spoiled_case(kind, random.Random(seed), number)
            line, status = verdict(data)
            print("\ncase %s: drawn store %d in the kind %s\nsince 10\nstore\n%s" % (name, seed, shown, text(spelled(data))))
            print("words verify s\nout\n| %s\nstatus %d\nsize %d" % (line, status, len(data)))


def drawn(count):
    words = " ".join(map(str, count))
    print("# The drawn sessions on stores, and whether these agree, as `model/verify.py --drawn %s` prints them." % words)
    for kind, number in ((kind, number) for kind, most in zip(KINDS, count) for number in range(1, most + 1)):
        script = draw.Script(random.Random(number), random.Random(number + 1000), kind)
        script.play()
        told = [it for it in script.statements if it.split()[0] in ("load", "ins", "del", "copy", "commit")]
        replies = [it for it in script.replies if it.startswith(("loaded", "committed"))]
        session = script.session
        print("\ncase drawn session %d on a store of the kind %s\nsince 10" % (number, kind))
        print("file t.json -\n" + text([draw.as_json(script.start)]))
        print("file s.json -\n" + text([draw.as_json(session.source)]))
        print("words init s %s t.json\nout\n| created %s %d" % (kind, kind, len(script.start)))
        print("words run s\nin\n" + text(it + ";" for it in told + ["stats"]))
        print("out\n" + text(replies + ["stats: " + session.stats()]) + "\nstatus 0")
        print("words verify s\nout\n| agrees %d\nstatus 0" % len(session.records))


def main():
    word = sys.argv[1] if len(sys.argv) > 1 else ""
    if word == "--changed":
        changed()
    elif word == "--cut":
        cut()
    elif word == "--spoiled":
        spoiled()
    elif word == "--drawn":
        drawn(list(map(int, sys.argv[2:])))
    else:
        calls.main(Disks)


if __name__ == "__main__":
    main()
