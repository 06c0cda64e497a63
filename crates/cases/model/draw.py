#!/usr/bin/env python3
"""Draws sessions of one kind, and works out what they reply.

    draw.py KIND [COUNT]     writes COUNT cases (300 without a number) in the form of the data

The replies come from a replay over trees whose places carry their whole past, the children that they lost among it: no
overlay, no index, and no records but those that are asked for. At the start of a step each place carries itself, at its end a place has the effect that what it
carries gives, and the step's records follow from the effects of all places. In the kinds n and h each operation is a step,
in t and ht each transaction. The transactions move places out and back, replace places and put back what was below them,
copy over copies, delete copies, insert whole trees, and take much of what they do back. The draws are those of Python's
`random` from the case's number, so that the scripts are the same in each kind.
"""
import random
import sys

LABELS = ["a", "b", "c", "d", "e"]
VALUES = ["null", "true", "false", "0", "7", "12", '"x"', '"two words"']


def below(tree, place):
    return {path: tree[path] for path in tree if path[: len(place)] == place}


def aged(tree, work, tid):
    """The tree to which a step with this Tid leads, by what the places carry at its end."""
    after = {}
    for path, (content, origin) in work.items():
        if origin is None:
            past = [("born", tid)]
        elif origin[0] != "T":
            past = [("copied", tid, origin)]
        elif origin[1:] != path:
            past = tree[origin[1:]][1] + [("copied", tid, origin)]
        elif loses_child(tree, work, path):
            past = tree[path][1] + [("lost", tid)]
        else:
            past = tree[path][1]
        after[path] = (content, past)
    return after


class Session:
    """The committed tree with the pasts of its places, the records of all steps, the source, and the open transaction."""

    def __init__(self, kind, tree, source):
        self.kind = kind
        self.tree = {path: (content, []) for path, content in tree.items()}
        self.source = source
        self.now = 0
        self.commits = 0
        self.records = []
        self.ops = []
        self.work = carrying_themselves(self.tree)

    def apply(self, op):
        self.ops.append(op)
        op(self.work)

    def ins(self, path, label, literal):
        def op(work):
            for rest, content in literal.items():
                work[path + (label,) + rest] = (content, None)

        self.apply(op)

    def delete(self, path, label):
        def op(work):
            for gone in below(work, path + (label,)):
                del work[gone]

        self.apply(op)

    def copy(self, name, source, path):
        def op(work):
            if name == "T":
                moved = {at[len(source) :]: work[at] for at in below(work, source)}
            else:
                moved = {
                    at[len(source) :]: (self.source[at], (name,) + at) for at in below(self.source, source)
                }
            for gone in below(work, path):
                del work[gone]
            for rest, what in moved.items():
                work[path + rest] = what

        self.apply(op)

    def commit(self):
        for ops in [[op] for op in self.ops] if self.kind in ("n", "h") else [self.ops]:
            work = carrying_themselves(self.tree)
            for op in ops:
                op(work)
            self.settle(work)
        self.commits += 1
        self.ops = []
        self.work = carrying_themselves(self.tree)

    def settle(self, work):
        """One step has led from the tree to these places with what they carry."""
        self.now += 1
        rows = full_rows(self.tree, work) if self.kind in ("n", "t") else reduced_rows(self.tree, work)
        self.records += [(self.now,) + row for row in rows]
        self.tree = aged(self.tree, work, self.now)

    def trace(self, path):
        segments, at, high = [], ("T",) + path, self.now
        for event in reversed(brought(self.tree[path][1])):
            segments.append((at, event[1], high))
            if event[0] == "born":
                return segments, "new"
            if event[2][0] != "T":
                return segments, spelled(event[2])
            at, high = event[2], event[1] - 1
        segments.append((at, 0, high))
        return segments, "start"

    def src(self, path):
        past = self.tree[path][1]
        return past[0][1] if past and past[0][0] == "born" else None

    def hist(self, path):
        return [event[1] for event in self.tree[path][1] if event[0] == "copied"]

    def mod(self, path):
        return sorted({event[1] for _, past in below(self.tree, path).values() for event in past})

    def origin(self, path):
        """Where the data came from at last."""
        past = brought(self.tree[path][1])
        if not past:
            return "start"
        what = "new" if past[-1][0] == "born" else spelled(past[-1][2])
        return "%s at %d" % (what, past[-1][1])

    def stats(self):
        numbers = (self.kind, self.now, self.commits, len(self.records), len(self.tree))
        return "kind %s, tid %d, transactions %d, records %d, nodes %d, sources 1" % numbers


def brought(past):
    """The events of a past that brought the data somewhere, without those that took a child from it."""
    return [event for event in past if event[0] != "lost"]


def loses_child(tree, work, path):
    return any(at not in work for at in tree if len(at) == len(path) + 1 and at[:-1] == path)


def carrying_themselves(tree):
    return {path: (content, ("T",) + path) for path, (content, _) in tree.items()}


def effect(work, path):
    """What has become of a place that is there: `same`, `new`, or the place that its data is from."""
    origin = work[path][1]
    if origin is None:
        return "new"
    return "same" if origin == ("T",) + path else origin


def given(work, path):
    """What the effect of the place above gives this one."""
    if not path:
        return "same"
    above = effect(work, path[:-1])
    return above if above in ("same", "new") else above + path[-1:]


def lost(tree, work, path):
    """The place was there and is gone, and what is left nearest above it is the same."""
    if path in work or path not in tree:
        return False
    above = path
    while above not in work:
        above = above[:-1]
    return effect(work, above) == "same"


def row(path, what):
    if what == "new":
        return ("I", path)
    return ("K", path) if what == "same" else ("C", path, what)


def full_rows(tree, work):
    rows = []
    for path in sorted(set(tree) | set(work)):
        if lost(tree, work, path):
            rows.append(("D", path))
        elif path in work and effect(work, path) != "same":
            rows.append(row(path, effect(work, path)))
    return rows


def reduced_rows(tree, work):
    rows = []
    for path in sorted(set(tree) | set(work)):
        if path in work:
            if effect(work, path) != given(work, path):
                rows.append(row(path, effect(work, path)))
        elif lost(tree, work, path) and path[:-1] in work:
            rows.append(("D", path))
    return rows


def shown_record(record):
    words = [str(record[0]), record[1], spelled(("T",) + record[2])]
    return " ".join(words + [spelled(record[3])] if len(record) > 3 else words)


def spelled(place):
    return "/".join(place)


def shown(tree, path=(), colon=" : "):
    """The tree at a place, labels in the order of their bytes."""
    content = tree[path]
    if content != "node":
        return content
    labels = sorted(at[-1] for at in tree if len(at) == len(path) + 1 and at[:-1] == path)
    parts = [spell_label(a, colon) + shown(tree, path + (a,), colon) for a in labels]
    return "{" + ", ".join(parts) + "}"


def spell_label(label, colon):
    return ('"' + label + '"' if colon == ":" else label) + colon


def drawn_tree(draw, depth, width, least=0):
    tree = {(): "node"}
    for label in draw.sample(LABELS, draw.randint(least, width)):
        if depth > 1 and draw.random() < 0.6:
            child = drawn_tree(draw, depth - 1, width)
        else:
            child = {(): draw.choice(VALUES + ["node"])}
        for rest, content in child.items():
            tree[(label,) + rest] = content
    return tree


class Script:
    """The statements of one session, with the replies to them."""

    def __init__(self, draw, more, kind):
        self.draw = draw
        self.more = more
        self.start = drawn_tree(draw, 3, 4, 2)
        source = drawn_tree(draw, 3, 4, 1)
        self.session = Session(kind, self.start, source)
        self.statements = ['load S json "s.json"']
        self.replies = ["loaded S %d" % len(source)]

    def paths(self, node=False):
        return sorted(p for p, (content, _) in self.session.work.items() if not node or content == "node")

    def target(self):
        """A place to copy onto, seldom the root."""
        paths = self.paths()
        inner = [p for p in paths if p]
        return self.draw.choice(inner if inner and self.draw.random() < 0.97 else paths)

    def free(self, path):
        taken = {p[-1] for p in self.session.work if len(p) == len(path) + 1 and p[:-1] == path}
        return [label for label in LABELS + ["tmp"] if label not in taken]

    def ins(self, path, label, literal):
        self.session.ins(path, label, literal)
        self.statements.append("ins {%s : %s} into %s" % (label, shown(literal), spelled(("T",) + path)))

    def delete(self, path):
        self.session.delete(path[:-1], path[-1])
        self.statements.append("del %s from %s" % (path[-1], spelled(("T",) + path[:-1])))

    def copy(self, name, source, path):
        self.session.copy(name, source, path)
        self.statements.append("copy %s into %s" % (spelled((name,) + source), spelled(("T",) + path)))

    def too_deep(self, moved, source, path):
        return any(len(path) + len(at) - len(source) > 7 for at in below(moved, source))

    def step(self):
        draw, kind = self.draw, self.draw.random()
        nodes, paths = self.paths(True), self.paths()
        if kind < 0.2 and nodes:
            path = draw.choice(nodes)
            labels = self.free(path)
            if labels and len(path) < 5:
                literal = drawn_tree(draw, 2, 2) if draw.random() < 0.5 else {(): draw.choice(VALUES + ["node"])}
                self.ins(path, draw.choice(labels), literal)
        elif kind < 0.4 and len(paths) > 1:
            self.delete(draw.choice([p for p in paths if p]))
        elif kind < 0.75:
            source, path = draw.choice(paths), self.target()
            if not self.too_deep(self.session.work, source, path) and len(self.session.work) < 60:
                self.copy("T", source, path)
        elif kind < 0.9:
            source, path = draw.choice(sorted(self.session.source)), self.target()
            if not self.too_deep(self.session.source, source, path) and len(self.session.work) < 60:
                self.copy("S", source, path)
        elif kind < 0.95:
            self.out_and_back()
        else:
            self.out_and_below()

    def out_and_below(self):
        """A place is replaced, and some of what was below it comes back to where it was."""
        draw = self.draw
        places = [p for p in self.paths(True) if p and p[0] != "tmp" and any(q[:-1] == p for q in self.paths())]
        if ("tmp",) in self.session.work or self.session.work[()][0] != "node" or not places:
            return
        place = draw.choice(places)
        children = sorted({p[len(place)] for p in below(self.session.work, place) if p != place})
        self.ins((), "tmp", {(): "node"})
        self.copy("T", place, ("tmp",))
        if draw.random() < 0.5:
            self.copy("S", (), place)
        else:
            self.delete(place)
            self.ins(place[:-1], place[-1], {(): "node"})
        for label in draw.sample(children, min(len(children), draw.randint(1, 2))):
            if place + (label,) not in self.session.work:
                self.ins(place, label, {(): "null"})
            self.copy("T", ("tmp", label), place + (label,))
        self.delete(("tmp",))

    def out_and_back(self):
        """A place goes to a temporary one, something happens to it or to its place, and it comes back."""
        draw = self.draw
        if ("tmp",) in self.session.work or self.session.work[()][0] != "node":
            return
        places = [p for p in self.paths() if p]
        if not places:
            return
        place = draw.choice(places)
        self.ins((), "tmp", {(): "node"})
        self.copy("T", place, ("tmp",))
        what = draw.random()
        if what < 0.4:
            self.delete(place)
            self.ins(place[:-1], place[-1], {(): "node"})
        elif what < 0.6:
            self.copy("S", (), place)
        elif what < 0.8:
            inside = [p for p in self.paths() if len(p) > 1 and p[0] == "tmp"]
            if inside:
                self.delete(draw.choice(inside))
        self.copy("T", ("tmp",), place)
        self.delete(("tmp",))

    def transaction(self, length):
        count = len(self.statements)
        for _ in range(length):
            self.step()
        if len(self.statements) == count:
            self.copy("T", (), ())
        self.statements.append("commit")
        low = self.session.now + 1
        self.session.commit()
        high = self.session.now
        self.replies.append("committed %d" % low if low == high else "committed %d..%d" % (low, high))
        for tid in range(low, high + 1):
            self.ask_records(tid)

    def ask_records(self, tid=None):
        """The records of one step, or all."""
        self.statements.append("records" if tid is None else "records %d" % tid)
        records = [record for record in self.session.records if tid is None or record[0] == tid]
        self.replies += [shown_record(record) for record in records] + ["records: %d" % len(records)]

    def ask(self, path):
        place = spelled(("T",) + path)
        segments, end = self.session.trace(path)
        self.statements.append("trace " + place)
        steps = ["%s@%d..%d" % (spelled(at), low, high) for at, low, high in segments]
        self.replies.append("trace %s: %s < %s" % (place, " < ".join(steps), end))
        self.statements.append("from " + place)
        self.replies.append("from %s: %s" % (place, self.session.origin(path)))
        if self.more.random() < 0.5:
            self.ask_mod(path)
        if self.draw.random() < 0.3:
            tid, tids = self.session.src(path), self.session.hist(path)
            self.statements += ["src " + place, "hist " + place]
            self.replies.append("src %s: %s" % (place, "none" if tid is None else tid))
            self.replies.append("hist %s: %s" % (place, " ".join(map(str, tids)) or "none"))

    def ask_mod(self, path):
        place, tids = spelled(("T",) + path), self.session.mod(path)
        self.statements.append("mod " + place)
        self.replies.append("mod %s: %s" % (place, " ".join(map(str, tids)) or "none"))

    def play(self):
        for _ in range(self.draw.randint(1, 4)):
            self.transaction(self.draw.randint(1, 14))
            tree = sorted(self.session.tree)
            for path in self.draw.sample(tree, min(3, len(tree))):
                self.ask(path)
        for path in sorted(self.session.tree):
            self.ask(path)
        self.ask_mod(())
        self.ask_records()
        self.ask_records(self.session.now + 1)
        self.statements.append("stats")
        self.replies.append("stats: " + self.session.stats())
        self.statements.append("show T")
        tree = {path: content for path, (content, _) in self.session.tree.items()}
        self.replies.append("show T: " + shown(tree))


def as_json(tree):
    return shown(tree, (), ":")


def text(lines):
    return "\n".join("| " + line for line in lines)


def main():
    kind = sys.argv[1]
    count = int(sys.argv[2]) if len(sys.argv) > 2 else 300
    print("# Drawn sessions of the kind %s, as `model/draw.py %s` prints them." % (kind, " ".join(sys.argv[1:])))
    for number in range(1, count + 1):
        script = Script(random.Random(number), random.Random(number + 1000), kind)
        script.play()
        print("\ncase drawn session %d in kind %s" % (number, kind))
        print("since 7")
        print("file t.json -\n" + text([as_json(script.start)]))
        print("file s.json -\n" + text([as_json(script.session.source)]))
        print("words scratch %s t.json" % kind)
        print("in\n" + text(line + ";" for line in script.statements))
        print("out\n" + text(script.replies))
        print("ends 0")


if __name__ == "__main__":
    main()
