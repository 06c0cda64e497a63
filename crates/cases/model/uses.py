#!/usr/bin/env python3
"""Draws the records of stores, and works out which places use each place.

    uses.py [COUNT]     writes the tables of COUNT drawn stores of each kind (12 without a number), and of stores at the limits

The sessions are those that `draw.py` draws. It replays them over trees whose places carry their whole past, and a place uses
another where its trace, from that past, names the other: no index, no walk forward and no record is asked. What is asked is
each place that was ever in T, each place of the source, and for some of both a place below that never was.
"""
import random
import re
import sys

from draw import Script, Session, as_json, brought, shown_record, spelled

LABELS_MAX, SIZE_MAX = 64, 1024


class Watched(Session):
    """A session that remembers each place that was in T after a step."""

    def __init__(self, kind, tree, source):
        super().__init__(kind, tree, source)
        self.ever = set(tree)

    def settle(self, work):
        super().settle(work)
        self.ever |= set(self.tree)

    def passed(self, path):
        """The places through which the data at a place of T came, or the place of a source where it came from."""
        places = {("T",) + path}
        for event in reversed(brought(self.tree[path][1])):
            if event[0] == "born":
                break
            places.add(event[2])
        return places

    def users(self):
        """For each place that is used, the places of T that use it."""
        found = {}
        for path in sorted(self.tree):
            for place in self.passed(path):
                found.setdefault(place, []).append(("T",) + path)
        return found


def size(place):
    return len(place[0]) + sum(1 + len(label) for label in place[1:])


def is_within(place):
    return len(place) - 1 <= LABELS_MAX and size(place) <= SIZE_MAX


def record_line(record):
    words = shown_record(record).split()
    return " ".join(words[:3] + ["<"] + words[3:] if len(words) > 3 else words)


def escaped(line):
    """Long runs as the player's escapes."""
    return re.sub(r'(/d|\{"d":|[^%])\1{20,}', lambda run: "%%<%s*%d>" % (run[1], len(run[0]) // len(run[1])), line)


def print_case(name, session, places):
    tree = {path: content for path, (content, _) in session.tree.items()}
    users = session.users()
    print("\ncase %s" % name)
    print("uses %s %d" % (session.kind, session.now))
    for line in [as_json(tree)] + [record_line(record) for record in session.records]:
        print("| " + escaped(line))
    for place in places:
        print("| ? " + escaped(spelled(place)))
    print("out")
    for place in places:
        print("| " + escaped("%s: %s" % (spelled(place), " ".join(map(spelled, users.get(place, []))) or "none")))


def asked(session, draw):
    """Every place of T and of the source, and some that never were."""
    places = {("T",) + path for path in session.ever} | {("S",) + path for path in session.source}
    never = draw.sample(sorted(places), min(4, len(places)))
    places |= {place + ("never",) for place in never}
    return sorted(place for place in places if is_within(place))


def drawn_script(kind, number):
    draw = random.Random(number)
    script = Script(draw, random.Random(number + 1000), kind)
    session = Watched(kind, script.start, script.session.source)
    script.session = session
    for _ in range(draw.randint(1, 5)):
        script.transaction(draw.randint(1, 12))
    return session


def drawn(count):
    for kind in ("n", "t", "h", "ht"):
        for number in range(1, count + 1):
            session = drawn_script(kind, number)
            places = asked(session, random.Random(number + 2000))
            print_case("drawn store %d in kind %s, of each place" % (number, kind), session, places)


def chain(*labels):
    """The nodes on the way down to a place."""
    return {labels[:count]: "node" for count in range(len(labels) + 1)}


def deepest(kind):
    """Copies to places with 64 labels, the most there are."""
    way = ("d",) * 62
    session = Watched(kind, {**chain("x", "y"), **chain("v"), **chain(*way)}, {**chain("x"), **chain("w")})
    session.ins(way, "x", {(): "node"})
    session.copy("T", ("x",), way + ("x",))
    session.commit()
    session.ins(way, "v", {(): "node", ("v",): "node"})
    session.copy("T", ("v",), way + ("v", "v"))
    session.commit()
    session.copy("S", ("x",), way + ("v", "v"))
    session.copy("T", way + ("x", "y"), ("v",))
    session.commit()
    session.delete(way, "x")
    session.copy("S", ("w",), ("x",))
    session.commit()
    below = [("T", "x", "y"), ("T", "x", "y", "z"), ("T", "v", "z"), ("S", "x", "z"), ("S", "w", "z")]
    return session, below


def longest(kind):
    """Copies to places of 1,024 bytes, the most there are."""
    way = ("a" * 255, "b" * 255, "c" * 255)
    last = "e" * 254
    session = Watched(kind, {**chain("x"), **chain("v"), **chain(*way)}, {**chain("x"), **chain("w")})
    session.ins(way, last, {(): "node"})
    session.copy("T", ("x",), way + (last,))
    session.commit()
    session.copy("S", ("w",), ("v",))
    session.copy("T", ("v",), way + (last,))
    session.commit()
    session.copy("S", ("x",), way + (last,))
    session.copy("T", way + (last,), ("x",))
    session.copy("T", way, ("v",))
    session.commit()
    session.delete(way[:2], way[2])
    session.commit()
    return session, [("T", "x", "z"), ("T", "v", "z"), ("S", "x", "z"), ("S", "w", "z"), ("T", "v", last)]


def at_limits():
    for kind in ("n", "t", "h", "ht"):
        for name, made in (("64 labels", deepest), ("1,024 bytes", longest)):
            session, below = made(kind)
            places = {("T",) + path for path in session.ever} | {("S",) + path for path in session.source} | set(below)
            kept = [place for place in sorted(places) if is_within(place) and not set(place[1:]) == {"d"}]
            print_case("places of %s in kind %s" % (name, kind), session, kept)


def main():
    count = int(sys.argv[1]) if len(sys.argv) > 1 else 12
    print("# Which places use each place of a store: drawn stores of each kind, and stores with places at the limits. The first")
    print("# line of each is the tree of T, then come the records of its steps, then what is asked. As `model/uses.py %d` prints it." % count)
    drawn(count)
    at_limits()


if __name__ == "__main__":
    main()
