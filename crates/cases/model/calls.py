#!/usr/bin/env python3
"""Works out what the calls of cases write, and compares it with what the cases say.

    calls.py FILE ..         plays files of cases, and documents (.md), and prints what differs
    calls.py --gen WORD ..   prints what `gen WORD ..` writes

It knows all commands. Provenance comes from a replay over trees whose places carry their whole past (`draw.py`); a store is
the list of what was committed and loaded, so no byte of a store file is looked at: `verify.py` plays the cases that are
about such bytes. Calls of the outside that fail one after another are passed over. So are the limits of trees.
"""
import csv
import io
import itertools
import json
import os
import re
import sys

from draw import aged, brought, carrying_themselves, below, full_rows, loses_child, reduced_rows
from gen import gen

USAGE = """usage: cpdb scratch KIND [JSON]
usage: cpdb init STORE KIND [JSON]
usage: cpdb run STORE [CURATOR]
usage: cpdb commit STORE FILE [CURATOR]
usage: cpdb load STORE NAME json FILE
usage: cpdb load STORE NAME csv FILE [COLUMN]
usage: cpdb query STORE STATEMENT
usage: cpdb verify STORE
usage: cpdb checkpoint STORE
usage: cpdb gen SEED COUNT KIND
usage: cpdb log STORE
usage: cpdb at STORE TID STATEMENT
usage: cpdb archive STORE
usage: cpdb share STORE
usage: cpdb uses STORE PLACE
"""
KINDS = ("n", "t", "h", "ht")
PLACE_QUERIES = ("src", "hist", "mod", "trace", "from", "show")
QUERIES = ("src", "hist", "mod", "trace", "from", "show", "records", "stats")
TRIGGERS = set(map(chr, range(0x21))) | set('";{}:,')
ESCAPES = {'"': '\\"', "\\": "\\\\", "\b": "\\b", "\f": "\\f", "\n": "\\n", "\r": "\\r", "\t": "\\t"}
STATEMENT_MAX = 1_048_576
FILE_MAX = 67_108_864
# The last stage of the program whose cases are played.
STAGE = 10


# Spellings.


def size(text):
    return len(text.encode())


def quoted(text):
    return '"' + "".join(ESCAPES.get(c) or ("\\u%04x" % ord(c) if c < " " else c) for c in text) + '"'


def has_trigger(text):
    return any(c in TRIGGERS for c in text)


def escaped(label):
    return label.replace("~", "~0").replace("/", "~1")


def place_text(place):
    raw = "/".join([place[0]] + [escaped(label) for label in place[1:]])
    return quoted(raw) if has_trigger(raw) else raw


def label_text(label):
    text = escaped(label)
    return quoted(text) if not text or has_trigger(text) else text


def tree_text(tree, path=()):
    """The tree at a place, labels in the order of their bytes."""
    if tree[path] != "node":
        return tree[path]
    labels = sorted(at[-1] for at in tree if len(at) == len(path) + 1 and at[:-1] == path)
    return "{" + ", ".join("%s : %s" % (label_text(a), tree_text(tree, path + (a,))) for a in labels) + "}"


def record_text(record):
    words = [str(record[0]), record[1], place_text(("T",) + record[2])]
    return " ".join(words + [place_text(record[3])] if len(record) > 3 else words)


def is_name(word):
    return re.fullmatch("[A-Za-z][A-Za-z0-9_]{0,31}", word, re.A) is not None


def is_decimal(word, least, most):
    return re.fullmatch("0|[1-9][0-9]*", word, re.A) is not None and least <= int(word) <= most


# Reading statements.


class Fault(Exception):
    pass


def tokens(text):
    """Kind, text and offset of each token; the last is `end`."""
    at, offset = 0, 0
    while at < len(text):
        start, c = at, text[at]
        if c in " \t\n\r":
            kind, at = None, at + 1
        elif c in "{}:,":
            kind, at = c, at + 1
        elif c == '"':
            at += 1
            while at < len(text) and text[at] != '"':
                at += 2 if text[at] == "\\" else 1
            kind = "quoted" if at < len(text) else "bad"
            at = min(at + 1, len(text))
        elif c in TRIGGERS:
            kind, at = "bad", at + 1
        else:
            while at < len(text) and text[at] not in TRIGGERS:
                at += 1
            kind = "word"
        if kind:
            yield kind, text[start:at], offset
        offset += size(text[start:at])
    yield "end", "", offset


def string_in(token):
    """The text that a quoted token gives as a JSON string, or None."""
    try:
        text = json.loads(token)
        text.encode()
        return text
    except ValueError:
        return None


def raw_in(kind, token, may_be_empty):
    """The raw text that a word or a quoted token spells, or None."""
    if kind == "word":
        return token
    raw = string_in(token)
    if raw is None or quoted(raw) != token or not (has_trigger(raw) or may_be_empty and not raw):
        return None
    return raw


def label_in(text):
    if re.fullmatch("([^~/]|~[01])*", text, re.S) is None:
        return None
    return text.replace("~1", "/").replace("~0", "~")


class Parser:
    def __init__(self, text):
        self.tokens = tokens(text)
        self.take()

    def take(self):
        self.kind, self.text, self.at = next(self.tokens)

    def syntax(self):
        raise Fault("syntax at %d" % self.at)

    def fault(self, text):
        raise Fault("%s at %d" % (text, self.at))

    def expect(self, kind, text=None):
        if self.kind != kind or text is not None and self.text != text:
            self.syntax()
        found = self.text
        self.take()
        return found

    def keyword(self, *words):
        if self.kind != "word" or self.text not in words:
            self.syntax()
        return self.expect("word")

    def place(self):
        if self.kind not in ("word", "quoted"):
            self.syntax()
        raw = raw_in(self.kind, self.text, False)
        name, *labels = raw.split("/") if raw is not None else [""]
        labels = [label_in(label) for label in labels]
        if not is_name(name) or None in labels:
            self.fault("bad escape")
        if any(size(label) > 255 for label in labels):
            self.fault("label too long")
        if len(labels) > 64:
            self.fault("place too deep")
        if place_size((name, *labels)) > 1024:
            self.fault("place too long")
        self.take()
        return (name, *labels)

    def label(self):
        if self.kind not in ("word", "quoted"):
            self.syntax()
        raw = raw_in(self.kind, self.text, True)
        label = None if raw is None else label_in(raw)
        if label is None:
            self.fault("bad escape")
        if size(label) > 255:
            self.fault("label too long")
        self.take()
        return label

    def tree(self, depth):
        """The rows of a tree, from its root."""
        if self.kind == "{":
            self.take()
            rows = {(): "node"}
            while self.kind != "}":
                if len(rows) > 1:
                    self.expect(",")
                at = self.at
                label = self.label()
                if (label,) in rows or depth == 64:
                    raise Fault("syntax at %d" % at)
                self.expect(":")
                for rest, content in self.tree(depth + 1).items():
                    rows[(label, *rest)] = content
            self.take()
            return rows
        if self.kind == "quoted":
            text = string_in(self.text)
            if text is None or size(text) > 1_048_576:
                self.fault("bad value")
            content = quoted(text)
        elif self.kind == "word":
            content = self.text
            number = re.fullmatch("0|-?[1-9][0-9]*", content, re.A)
            if content not in ("null", "true", "false") and not (number and -(2**63) <= int(content) < 2**64):
                self.fault("bad value")
        else:
            self.syntax()
        self.take()
        return {(): content}

    def file(self):
        name = string_in(self.text) if self.kind == "quoted" else None
        if name is None:
            self.syntax()
        self.take()
        return name

    def load(self):
        if self.kind != "word" or not is_name(self.text) or self.text == "T":
            self.syntax()
        name = self.expect("word")
        form = self.keyword("json", "csv")
        file, key = self.file(), None
        if form == "csv" and self.kind == "word" and self.text == "by":
            self.take()
            key = self.label()
        return ("load", name, form, file, key)

    def statement(self):
        verb = self.keyword("ins", "del", "copy", "commit", "abort", "load", *QUERIES)
        if verb == "ins":
            self.expect("{")
            label = self.label()
            self.expect(":")
            tree = self.tree(1)
            self.expect("}")
            self.keyword("into")
            return ("ins", self.place(), label, tree)
        if verb == "del":
            label = self.label()
            self.keyword("from")
            return ("del", self.place(), label)
        if verb == "copy":
            source = self.place()
            self.keyword("into")
            return ("copy", self.place(), source)
        if verb == "load":
            return self.load()
        if verb == "show" and self.kind == "end":
            return ("show", ("T",))
        if verb in ("src", "hist", "mod", "trace", "from", "show"):
            return (verb, self.place())
        if verb == "records" and self.kind != "end":
            if self.kind != "word" or not is_decimal(self.text, 0, 2**64 - 1):
                self.syntax()
            return (verb, int(self.expect("word")))
        return (verb, None) if verb == "records" else (verb,)

    def whole(self):
        statement = self.statement()
        if self.kind != "end":
            self.syntax()
        return statement


def parse(data):
    try:
        text = data.decode()
    except UnicodeDecodeError as fault:
        raise Fault("syntax at %d" % fault.start)
    return Parser(text).whole()


def cuts(data):
    """Each text that a semicolon ends, and whether it is ended."""
    start, at, inside = 0, 0, False
    while at < len(data):
        c = data[at : at + 1]
        if inside:
            at += 1 if c == b"\\" else 0
            inside = c != b'"'
        elif c == b'"':
            inside = True
        elif c == b";":
            yield data[start:at], True
            start = at + 1
        at += 1
    yield data[start:], False


def place_size(place):
    return size(place[0]) + sum(1 + size(label) for label in place[1:])


# Sources.


class Refused(Exception):
    pass


def json_tree(name, data):
    def rows(value):
        if isinstance(value, dict):
            children = value
        elif isinstance(value, list):
            children = {str(number): child for number, child in enumerate(value)}
        else:
            return {(): value if isinstance(value, Broken) else json.dumps(value) if not isinstance(value, str) else quoted(value)}
        return {(): "node", **{(label, *rest): content for label in children for rest, content in rows(children[label]).items()}}

    class Broken(str):
        pass

    def whole(word):
        return Broken(word) if word == "-0" or not -(2**63) <= int(word) < 2**64 else int(word)

    try:
        text = data.decode()
        value = json.loads(text[1:] if text[:1] == "\ufeff" else text, parse_float=Broken, parse_int=whole, parse_constant=lambda it: 1 // 0)
        tree = rows(value)
        json.dumps(value, ensure_ascii=False).encode()
    except (ValueError, ZeroDivisionError):
        raise Refused("not JSON")
    if any(size(label) > 255 for path in tree for label in path):
        raise Refused("label too long")
    if any(len(path) > 64 for path in tree):
        raise Refused("place too deep")
    if any(place_size((name, *path)) > 1024 for path in tree):
        raise Refused("place too long")
    for path in sorted(tree):
        if isinstance(tree[path], Broken):
            raise Refused("number not whole at " + place_text((name, *path)))
    return tree


def csv_tree(data, key):
    text = data.decode()
    rows = [row for row in csv.reader(io.StringIO(text[1:] if text[:1] == "\ufeff" else text, newline="")) if row]
    if not rows:
        raise Refused("no header")
    header = rows[0]
    if any(size(field) > 255 for field in header):
        raise Refused("label too long")
    for number, field in enumerate(header):
        if field in header[:number]:
            raise Refused("repeated header at column %d" % (number + 1))
    if key is not None and key not in header:
        raise Refused("no column")
    tree = {(): "node"}
    for number, row in enumerate(rows[1:], 1):
        if len(row) != len(header):
            raise Refused("row %d is ragged" % number)
        label = str(number) if key is None else row[header.index(key)]
        if size(label) > 255:
            raise Refused("label too long")
        if (label,) in tree:
            raise Refused("repeated key at row %d" % number)
        tree[(label,)] = "node"
        for field, text in zip(header, row):
            tree[(label, field)] = quoted(text)
    return tree


# Sessions.


class Ended(Exception):
    """The call ends at once, with a status and a last line."""


class Store:
    """A kind, a tree whose places carry their past, sources, and the commits."""

    def __init__(self, kind, tree):
        self.kind, self.start = kind, tree
        self.tree = {path: (content, []) for path, content in tree.items()}
        self.sources = {}
        self.steps = []
        self.tid = 0
        self.records = []
        self.log = []

    def commit(self, ops, curator, moment):
        low = self.tid + 1
        for step in [[op] for op in ops] if self.kind in ("n", "h") else [ops]:
            self.take_step(step)
        self.log.append((low, self.tid, curator, moment, len(ops)))
        return low, self.tid

    def take_step(self, ops):
        work = carrying_themselves(self.tree)
        for op in ops:
            self.apply(work, op)
        self.settle(work)
        self.steps.append(ops)

    def versions(self):
        """A store that replays the steps alone, after none of them, after the first, and so on."""
        store = Store(self.kind, self.start)
        store.sources = self.sources
        yield store
        for ops in self.steps:
            store.take_step(ops)
            yield store

    def archive(self):
        count, ranges, before = 0, 0, {}
        for store in self.versions():
            now = {path: content for path, (content, _) in store.tree.items()}
            ranges += sum(before.get(path) != content for path, content in now.items())
            count, before = count + 1, now
        return "archive: versions %d, ranges %d" % (count, ranges)

    def apply(self, work, op):
        verb, place, what = op[0], op[1][1:], op[2]
        if verb == "ins":
            for rest, content in op[3].items():
                work[(*place, what, *rest)] = (content, None)
        elif verb == "del":
            for gone in below(work, (*place, what)):
                del work[gone]
        else:
            name, *path = what
            path = tuple(path)
            if name == "T":
                moved = {at[len(path) :]: work[at] for at in below(work, path)}
            else:
                found = below(self.sources[name], path)
                moved = {at[len(path) :]: (found[at], (name, *at)) for at in found}
            for gone in below(work, place):
                del work[gone]
            for rest, it in moved.items():
                work[place + rest] = it

    def settle(self, work):
        """One step has led from the tree to these places with what they carry."""
        self.tid += 1
        rows = full_rows(self.tree, work) if self.kind in ("n", "t") else reduced_rows(self.tree, work)
        self.records += [(self.tid, *row) for row in rows]
        self.tree = aged(self.tree, work, self.tid)

    def answer(self, verb, place):
        path, past = place[1:], None
        if place[0] != "T" or path not in self.tree:
            return "refused: no place " + place_text(place)
        past = brought(self.tree[path][1])
        if verb == "src":
            return "src %s: %s" % (place_text(place), past[0][1] if past and past[0][0] == "born" else "none")
        if verb == "hist":
            tids = [event[1] for event in past if event[0] == "copied"]
        elif verb == "mod":
            tids = sorted({event[1] for _, events in below(self.tree, path).values() for event in events})
        elif verb == "trace":
            return "trace %s: %s" % (place_text(place), " < ".join(self.segments(path, past)))
        else:
            end = "start" if not past else "%s at %d" % ("new" if past[-1][0] == "born" else place_text(past[-1][2]), past[-1][1])
            return "from %s: %s" % (place_text(place), end)
        return "%s %s: %s" % (verb, place_text(place), " ".join(map(str, tids)) or "none")

    def segments(self, path, past):
        at, high, parts = ("T", *path), self.tid, []
        for event in reversed(past):
            parts.append("%s@%d..%d" % (place_text(at), event[1], high))
            if event[0] == "born":
                return parts + ["new"]
            if event[2][0] != "T":
                return parts + [place_text(event[2])]
            at, high = event[2], event[1] - 1
        return parts + ["%s@0..%d" % (place_text(at), high), "start"]

    def passed(self, path):
        """The places through which the data of a place of the tree has come, and the place of a source where it came from."""
        found = [("T", *path)]
        for event in reversed(brought(self.tree[path][1])):
            if event[0] == "born":
                break
            found.append(event[2])
            if event[2][0] != "T":
                break
        return found

    def uses(self, place):
        if place[0] != "T" and place[0] not in self.sources:
            return "refused: no source " + place[0]
        found = [place_text(("T", *path)) for path in sorted(self.tree) if place in self.passed(path)]
        return "uses %s: %s" % (place_text(place), " ".join(found) or "none")

    def stats(self):
        numbers = (self.kind, self.tid, len(self.log), len(self.records), len(self.tree), len(self.sources))
        return "stats: kind %s, tid %d, transactions %d, records %d, nodes %d, sources %d" % numbers


def texts(data):
    """Each text that isn't white space alone, with the fault that it has as a whole."""
    for text, is_ended in cuts(data):
        if text.strip(b" \t\n\r"):
            if len(text) > STATEMENT_MAX:
                yield text, "statement too long"
            else:
                yield text, None if is_ended else "syntax at %d" % len(text)


class Session:
    def __init__(self, store, curator, world):
        self.store, self.curator, self.world = store, curator, world
        self.ops, self.failed, self.work = [], None, None

    def say(self, line):
        self.world.lines.append(line)

    def is_open(self):
        return self.work is not None or self.failed is not None

    def may_load(self):
        return not self.is_open()

    def fail(self, cause):
        if self.failed is None:
            self.failed = len(self.ops) + 1
        self.say("refused: " + cause)

    def run(self, data):
        for text, fault in texts(data):
            self.meet(text, fault)

    def meet(self, text, fault):
        """A text, or the fault that it has as a whole."""
        try:
            if fault:
                raise Fault(fault)
            statement = parse(text)
        except Fault as fault:
            self.fail(str(fault))
        else:
            self.take(statement)

    def take(self, statement):
        verb = statement[0]
        if verb in ("ins", "del", "copy"):
            self.operate(statement)
        elif verb == "commit":
            self.commit()
        elif verb == "abort":
            self.say("aborted %d" % (len(self.ops) if self.failed is None else self.failed - 1))
            self.ops, self.failed, self.work = [], None, None
        elif verb == "load":
            self.load(statement)
        elif verb == "show":
            self.show(statement[1])
        elif verb == "records":
            records = [it for it in self.store.records if statement[1] in (None, it[0])]
            for record in records:
                self.say(record_text(record))
            self.say("records: %d" % len(records))
        elif verb == "stats":
            self.say(self.store.stats())
        else:
            self.say(self.store.answer(verb, statement[1]))

    def operate(self, op):
        if self.failed is not None:
            self.say("refused: transaction failed at %d" % self.failed)
            return
        if self.work is None:
            self.work = carrying_themselves(self.store.tree)
        cause = "too many operations" if len(self.ops) == 65_535 else self.cause(op)
        if cause:
            self.fail(cause)
            return
        self.ops.append(op)
        self.store.apply(self.work, op)

    def cause(self, op):
        verb, place, what = op[0], op[1], op[2]
        path, work = place[1:], self.work
        if place[0] != "T":
            return "read only " + place_text(place)
        if path not in work:
            return "no place " + place_text(place)
        if verb != "copy":
            if work[path][0] != "node":
                return "not a node " + place_text(place)
            is_there = (*path, what) in work
            if verb == "ins" and is_there:
                return "label %s is there in %s" % (label_text(what), place_text(place))
            if verb == "del" and not is_there:
                return "no label %s in %s" % (label_text(what), place_text(place))
            added = [(*path, what, *rest) for rest in op[3]] if verb == "ins" else []
        else:
            if what[0] != "T" and what[0] not in self.store.sources:
                return "no source " + what[0]
            tree = work if what[0] == "T" else self.store.sources[what[0]]
            if what[1:] not in tree:
                return "no origin " + place_text(what)
            added = [(*path, *at[len(what) - 1 :]) for at in below(tree, what[1:])]
        if any(len(at) > 64 or place_size(("T", *at)) > 1024 for at in added):
            return "too deep"
        return None

    def commit(self):
        if self.failed is not None:
            self.say("refused commit: failed at %d" % self.failed)
        elif not self.ops:
            self.say("refused commit: no operation")
        else:
            low, high = self.store.commit(self.ops, self.curator, self.world.moment())
            self.say("committed %d" % low if low == high else "committed %d..%d" % (low, high))
        self.ops, self.failed, self.work = [], None, None

    def load(self, statement):
        _, name, form, file, key = statement
        try:
            if not self.may_load():
                raise Refused("a transaction is open")
            if name in self.store.sources:
                raise Refused("source %s is there" % name)
            if len(self.store.sources) == 32:
                raise Refused("too many sources")
            data = self.world.read(file)
            tree = json_tree(name, data) if form == "json" else csv_tree(data, key)
            self.store.sources[name] = tree
            self.say("loaded %s %d" % (name, len(tree)))
        except Refused as cause:
            self.say("refused load: %s" % cause)

    def show(self, place):
        if place[0] != "T":
            if place[0] not in self.store.sources:
                self.say("refused: no source " + place[0])
                return
            tree = self.store.sources[place[0]]
        else:
            is_going = self.work is not None and self.failed is None
            tree = {path: it[0] for path, it in (self.work if is_going else self.store.tree).items()}
        if place[1:] not in tree:
            self.say("refused: no place " + place_text(place))
        else:
            self.say("show %s: %s" % (place_text(place), tree_text(tree, place[1:])))


class Curator(Session):
    """One of several curators, whose transaction stays on the tree on which it began."""

    def __init__(self, name, desks, world):
        super().__init__(desks.store, name, world)
        self.desks, self.since = desks, None

    def say(self, line):
        super().say("@%s %s" % (self.curator, line))

    def may_load(self):
        return not any(one.is_open() for one in self.desks.curators.values())

    def operate(self, op):
        if not self.is_open():
            self.since = self.store.tid
        super().operate(op)

    def commit(self):
        if self.failed is None and self.ops and self.since < self.store.tid:
            self.say("refused commit: stale at %d" % self.store.tid)
            self.ops, self.work = [], None
        else:
            super().commit()


class Desks:
    """The input of several curators, each text of which begins with the name of one."""

    def __init__(self, store, world):
        self.store, self.world, self.curators = store, world, {}

    def run(self, data):
        for text, fault in texts(data):
            found = re.match(rb'[ \t\n\r]*@([A-Za-z][A-Za-z0-9_]{0,31})(?=[\x00-\x20";{}:,]|\Z)', text)
            if found and len(text) <= STATEMENT_MAX:
                name = found[1].decode()
                blanks = b" " * len(found[0])
                self.curators.setdefault(name, Curator(name, self, self.world)).meet(blanks + text[len(blanks) :], fault)
            else:
                self.world.lines.append("refused: " + self.fault_of_nobody(text, fault))

    def fault_of_nobody(self, text, fault):
        """Where a text is refused that is nobody's."""
        if len(text) > STATEMENT_MAX:
            return fault
        try:
            text.decode()
        except UnicodeDecodeError as bad:
            return "syntax at %d" % bad.start
        return fault or "syntax at %d" % (len(text) - len(text.lstrip(b" \t\n\r")))


# Calls.


def place_of(word):
    """The place that a word spells, if it does: each has one spelling."""
    try:
        verb, place, *_ = parse(("src " + word).encode())
    except Fault:
        return None
    return place if verb == "src" and place_text(place) == word else None


def fit(words):
    """Whether the words after the program's name fit."""
    if any(not word or word[0] == "-" for word in words):
        return False
    match words:
        case ["scratch", kind] | ["scratch", kind, _] | ["init", _, kind] | ["init", _, kind, _]:
            return kind in KINDS
        case ["run", _] | ["commit", _, _] | ["log", _] | ["verify", _] | ["archive", _] | ["share", _]:
            return True
        case ["run", _, curator] | ["commit", _, _, curator]:
            return size(curator) <= 255
        case ["load", _, name, "json", _] | ["load", _, name, "csv", _]:
            return is_name(name) and name != "T"
        case ["load", _, name, "csv", _, column]:
            return is_name(name) and name != "T" and size(column) <= 255
        case ["query", _, statement]:
            try:
                return parse(statement.encode())[0] in QUERIES
            except Fault:
                return False
        case ["at", _, tid, statement]:
            try:
                verb, place, *_ = parse(statement.encode())
            except (Fault, ValueError):
                return False
            return is_decimal(tid, 0, 2**64 - 1) and verb in PLACE_QUERIES and place[0] == "T"
        case ["uses", _, place]:
            return place_of(place) is not None
        case ["gen", seed, count, kind]:
            return is_decimal(seed, 0, 2**64 - 1) and is_decimal(count, 1, 100_000) and kind in KINDS
    return False


class World:
    """The stores, the files, and what one call meets and writes."""

    PASSED_OVER = {"store", "bare", "cut", "change", "pieces", "room"}

    def __init__(self, folder=None):
        self.stores, self.files, self.folder = {}, {}, folder
        self.begin([])
        self.made = True

    def begin(self, words):
        self.words, self.input, self.moments, self.fails = words, b"", [], {}
        self.made, self.counts, self.lines = False, {}, []

    def touch(self, device, status):
        """One more call of a device."""
        self.counts[device] = self.counts.get(device, 0) + 1
        if self.counts[device] in self.fails.get(device, []):
            raise Ended(status, "error: " + device)

    def moment(self):
        self.touch("clock", 9)
        return self.moments.pop(0) if self.moments else 0

    def read(self, name):
        self.touch("file", 3)
        data = self.files.get(name)
        if data is None and self.folder and os.path.exists(os.path.join(self.folder, name)):
            data = open(os.path.join(self.folder, name), "rb").read()
        if data is None:
            raise Refused("no file")
        if len(data) > FILE_MAX:
            raise Refused("file too long")
        return data

    def spoil(self, key, rest, text):
        """A store gets other bytes."""

    def differs(self, key, rest):
        """What the bytes of the last store are other than the part says; None where they are that."""
        return None

    def take_input(self):
        self.touch("input", 3)
        data, self.input = self.input, b""
        return data

    def start(self, command, words):
        try:
            return json_tree("T", self.read(words[0])) if words else {(): "node"}
        except Refused as cause:
            self.lines.append("refused %s: %s" % (command, cause))
            return None

    def opened(self, name):
        self.touch("disk", 5)
        if name not in self.stores:
            raise Ended(6, "error: not a store at 0")
        return self.stores[name]

    def call(self):
        command, *words = self.words
        if command == "gen":
            self.lines += gen(int(words[0]), int(words[1]), words[2])
        elif command == "scratch":
            tree = self.start(command, words[1:])
            if tree:
                Session(Store(words[0], tree), "", self).run(self.take_input())
        elif command == "init":
            self.touch("disk", 5)
            if words[0] in self.stores:
                self.lines.append("refused init: store exists")
                return
            tree = self.start(command, words[2:])
            if tree:
                self.stores[words[0]] = Store(words[1], tree)
                self.lines.append("created %s %d" % (words[1], len(tree)))
        else:
            self.on_store(command, self.opened(words[0]), words[1:])

    def on_store(self, command, store, words):
        if command == "run":
            Session(store, "".join(words), self).run(self.take_input())
        elif command == "share":
            Desks(store, self).run(self.take_input())
        elif command == "commit":
            try:
                data = self.read(words[0])
            except Refused as cause:
                self.lines.append("refused commit: %s" % cause)
                return
            Session(store, "".join(words[1:]), self).run(data + b"\ncommit;")
        elif command == "load":
            name, form, file = words[:3]
            Session(store, "", self).take(("load", name, form, file, words[3] if len(words) > 3 else None))
        elif command == "query":
            Session(store, "", self).take(parse(words[0].encode()))
        elif command == "at":
            tid, statement = int(words[0]), parse(words[1].encode())
            if tid > store.tid:
                self.lines.append("refused: no version %d" % tid)
            else:
                Session(next(itertools.islice(store.versions(), tid, None)), "", self).take(statement)
        elif command == "archive":
            self.lines.append(store.archive())
        elif command == "uses":
            self.lines.append(store.uses(place_of(words[0])))
        elif command == "verify":
            self.lines.append("agrees %d" % len(store.records))
        else:
            for low, high, curator, moment, count in store.log:
                tids = str(low) if low == high else "%d..%d" % (low, high)
                self.lines.append("commit %s by %s at %d, operations %d" % (tids, label_text(curator), moment, count))
            self.lines.append("log: %d" % len(store.log))

    def make(self):
        """Makes the call, once."""
        if self.made:
            return
        self.made = True
        if not fit(self.words):
            self.status, self.output = 2, "" if "output" in self.fails else USAGE
            return
        try:
            self.call()
            self.status = int(any(re.match("(@[A-Za-z0-9_]+ )?(refused|differs)", line) for line in self.lines))
        except Ended as end:
            self.status = end.args[0]
            self.lines.append(end.args[1])
        self.output = "".join(line + "\n" for line in self.lines)


# Files of cases.


def expanded(line):
    first, *pieces = line.split("%<")
    data = first.encode()
    for piece in pieces:
        escape, _, plain = piece.partition(">") if ">" in piece else ("", "", piece)
        if "*" in escape:
            text, _, times = escape.rpartition("*")
            text = text.replace("\\n", "\n")
            times = int(times)
            data += (text * times if "#" not in text else "".join(text.replace("#", str(n)) for n in range(times))).encode()
        else:
            data += bytes.fromhex(escape)
        data += plain.encode()
    return data + b"\n"


def words_of(line):
    words, begun = [], None
    for piece in line.split(" "):
        word = piece if begun is None else begun + " " + piece
        begun = None
        if not word.startswith('"'):
            words += [word] if word else []
        elif len(word) > 1 and word.endswith('"'):
            words.append(word[1:-1])
        else:
            begun = word
    return words


def cases_of(path):
    """Name, parts (key, rest, lines) and rows of each case."""
    cases, common = [], []
    parts, rows = common, []
    for line in open(path, newline="\n").read().split("\n"):
        if line.startswith("| ") or line == "|":
            parts[-1][2].append(line[2:])
        elif not line or line == "common" or line.startswith("#"):
            pass
        elif line.startswith(("case ", "table ")):
            parts, rows = list(common), []
            cases.append((line.partition(" ")[2], parts, rows))
        elif line.startswith("- "):
            rows.append(line[2:])
        else:
            key, _, rest = line.partition(" ")
            parts.append((key, rest, []))
    return cases


def sessions_of(path):
    """The same of a document: its examples, and its sessions with the calls that go on with their stores."""
    cases, block = [], None
    for line in open(path).read().split("\n"):
        if not line.startswith("    "):
            block = None if block == "example" else block
            continue
        line = line[4:]
        if line.startswith("< "):
            block = "example"
            cases.append((line, [("words", "scratch n", []), ("in", "-", [line[2:]]), ("out", "", [])], []))
        elif line.startswith("$ bin/cpdb "):
            block, words = "session", line[11:]
            if words.split()[0] not in ("run", "commit", "load", "query", "log", "verify", "at", "archive", "share", "uses"):
                cases.append((line, [], []))
            moment = 1_795_910_400 + 60 * (len(cases[-1][1]) // 4)
            moments = "%d %d %d" % (moment, moment + 1, moment + 2)
            cases[-1][1].extend([("words", words, []), ("clock", moments, []), ("in", "", []), ("out", "", [])])
        elif block:
            goes_in = block == "session" and line.endswith(";")
            cases[-1][1][-2 if goes_in else -1][2].append(line)
    return cases


def filled(line, row):
    for number, column in enumerate(row.split(" -> ") if row is not None else []):
        line = line.replace("@%d" % (number + 1), column)
    return line


def difference(found, wanted):
    for one, other in zip(found.split("\n") + [""], wanted.split("\n") + [""]):
        if one != other:
            return "%r, wanted %r" % (one[:200], other[:200])
    return "%d bytes, wanted %d" % (len(found), len(wanted))


def play(parts, row, world):
    """What differs, as a line; None where nothing does, and `skipped` where the case is passed over."""
    if any(key in world.PASSED_OVER or (key == "since" and int(rest) > STAGE) for key, rest, _ in parts):
        return "skipped"
    for key, rest, lines in parts:
        rest, is_open = (rest[:-1].rstrip(" "), True) if rest == "-" or rest.endswith(" -") else (rest, False)
        rest = filled(rest, row)
        text = b"".join(expanded(filled(line, row)) for line in lines)
        text = text[:-1] if is_open else text
        if key == "words" or key == "in" and world.made:
            world.make()
            world.begin(words_of(rest) if key == "words" else ["scratch", "n"])
        if key == "file":
            world.files[rest] = text
        elif key in ("store", "cut", "change"):
            world.make()
            world.spoil(key, rest, text)
        elif key == "in":
            world.input = text
        elif key == "clock":
            world.moments = list(map(int, rest.split()))
        elif key == "fail":
            device, *numbers = rest.split()
            if device == "output" and fit(world.words) or device == "disk" and numbers != ["1"]:
                return "skipped"
            world.fails[device] = list(map(int, numbers))
        elif key in ("out", "starts", "status", "ends", "left"):
            world.make()
            wanted = text.decode(errors="replace")
            if key == "out" and world.output != wanted or key == "starts" and not world.output.startswith(wanted):
                return difference(world.output, wanted)
            if key in ("status", "ends") and str(world.status) not in rest.split():
                return "status %d, wanted %s" % (world.status, rest)
            if key in ("left", "ends") and len(world.input) != (int(rest) if key == "left" else 0):
                return "%d bytes are left" % len(world.input)
        elif key in ("size", "bytes"):
            world.make()
            told = world.differs(key, rest)
            if told:
                return told
    return None


def main(world=World):
    if sys.argv[1:2] == ["--gen"]:
        print("\n".join(gen(int(sys.argv[2]), int(sys.argv[3]), sys.argv[4])))
        return
    passed = failed = skipped = 0
    for path in sys.argv[1:]:
        is_document = path.endswith(".md")
        folder = os.path.join(os.path.dirname(os.path.abspath(__file__)), "../data") if is_document else None
        for name, parts, rows in sessions_of(path) if is_document else cases_of(path):
            for row in rows or [None]:
                told = play(parts, row, world(folder))
                passed, failed, skipped = passed + (not told), failed + (told not in (None, "skipped")), skipped + (told == "skipped")
                if told and told != "skipped":
                    print("%s: %s%s: %s" % (path, name, ": " + row[:80] if row else "", told))
    print("%d passed, %d failed, %d skipped" % (passed, failed, skipped))
    sys.exit(failed > 0)


if __name__ == "__main__":
    main()
