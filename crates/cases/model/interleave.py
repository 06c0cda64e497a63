#!/usr/bin/env python3
"""Draws inputs of three curators on one store, and works out what each of them is told.

    interleave.py [COUNT]     writes the cases of COUNT drawn stores of each kind (10 without a number)

Each transaction is drawn as it begins, with `draw.py`, on the tree of that moment, and worked out on a copy of that tree alone;
its statements and those of the others then come in a drawn order. A commit is accepted where none was since its transaction
began, and then replayed over the one history, whose places carry their whole past. After the input each transaction is told once
more, to a `scratch` of its statements alone on the tree on which it began, which has to reply the same; and the log has the
curators' names, and the moments that the clock told, one for each commit that was accepted.
"""
import random
import sys

from draw import Script, Session, as_json, carrying_themselves, drawn_tree, shown, shown_record, spelled, text
from versions import VERBS, answer, call, refuses

NAMES = ("ann", "Bob_2", "T")
FIRST_MOMENT = 1_795_910_400


class Transaction(Session):
    """The open transaction of a curator: his operations, and the tree to which they lead from that on which it began."""

    def __init__(self, history):
        super().__init__(history.kind, {}, history.source)
        self.since = history.now
        self.begun = {path: content for path, (content, _) in history.tree.items()}
        self.work = carrying_themselves(history.tree)
        self.failed = None
        self.told = []

    def tree_now(self):
        return {path: content for path, (content, _) in self.work.items()}


class Curator(Script):
    """A curator, with the statements of his transaction that are still to come: each with the reply to it, None where it has
    none, or a function that gives the lines when it comes."""

    def __init__(self, name, draw):
        self.name, self.draw = name, draw
        self.session, self.to_come = None, []

    def begin(self, history):
        """Draws a transaction on the tree of the history."""
        draw = self.draw
        self.session, self.statements, self.to_come = Transaction(history), [], []
        fails_at = draw.randint(0, 5) if draw.random() < 0.3 else None
        for number in range(draw.randint(1, 6)):
            if number == fails_at:
                self.fail()
            if self.session.failed is None:
                count = len(self.statements)
                self.step()
                if not self.session.ops:
                    self.copy("T", (), ())
                self.to_come += [(statement, None) for statement in self.statements[count:]]
            else:
                self.to_come.append(("del a from T", "refused: transaction failed at %d" % self.session.failed))
            if draw.random() < 0.4:
                self.show()

    def fail(self):
        """An operation that is refused, or a text that no one can read."""
        kind = self.draw.random()
        self.session.failed = len(self.session.ops) + 1
        place = spelled(("T",) + self.draw.choice(self.paths()))
        if kind < 0.3:
            self.to_come.append(("frob " + place, "refused: syntax at %d"))
        elif kind < 0.6:
            self.to_come.append(("copy T/nowhere into " + place, "refused: no origin T/nowhere"))
        elif self.session.work[()][0] == "node":
            self.to_come.append(("del nothing from T", "refused: no label nothing in T"))
        else:
            self.to_come.append(("del nothing from T", "refused: not a node T"))

    def show(self):
        """The tree of the transaction; where that has failed, the one that is committed when the statement comes."""
        if self.session.failed is None:
            place = self.draw.choice([(), self.draw.choice(self.paths())])
            told = "show %s: %s" % (spelled(("T",) + place), shown(self.session.tree_now(), place))
            self.to_come.append(("show " + spelled(("T",) + place), told))
        else:
            self.to_come.append(("show T", lambda history: [answer(history, "show", ())]))


class Shared:
    """The history, and the input of three curators with the lines that answer it."""

    def __init__(self, kind, number):
        self.draw = random.Random(number)
        self.start = drawn_tree(self.draw, 3, 4, 2)
        self.history = Session(kind, self.start, drawn_tree(self.draw, 3, 4, 1))
        self.curators = [Curator(name, self.draw) for name in NAMES]
        self.statements, self.lines, self.log, self.ended = [], [], [], []

    def is_open(self):
        return any(one.session for one in self.curators)

    def say(self, curator, statement, reply):
        """A statement of a curator, and the line or the lines that it brings."""
        whole = "@%s %s" % (curator.name, statement)
        begins = len(whole) - len(statement) + bool(self.statements)
        self.statements.append(whole)
        lines = reply(self.history) if callable(reply) else [] if reply is None else [reply]
        lines = [line % begins if "%d" in line else line for line in lines]
        self.lines += ["@%s %s" % (curator.name, line) for line in lines]
        return lines

    def go_on(self, curator):
        """The next statement of his transaction, or its end."""
        if curator.to_come:
            statement, reply = curator.to_come.pop(0)
            lines = self.say(curator, statement, reply)
            if not callable(reply):
                curator.session.told.append((statement, lines))
            return
        transaction, curator.session = curator.session, None
        self.ended.append((curator.name, transaction))
        if self.draw.random() < 0.15:
            count = len(transaction.ops) if transaction.failed is None else transaction.failed - 1
            self.say(curator, "abort", "aborted %d" % count)
        elif transaction.failed is not None:
            self.say(curator, "commit", "refused commit: failed at %d" % transaction.failed)
        elif transaction.since < self.history.now:
            self.say(curator, "commit", "refused commit: stale at %d" % self.history.now)
        else:
            self.commit(curator, transaction.ops)

    def commit(self, curator, ops):
        low = self.history.now + 1
        self.history.ops = ops
        self.history.commit()
        high = self.history.now
        tids = "%d" % low if low == high else "%d..%d" % (low, high)
        self.log.append("commit %s by %s at %d, operations %d" % (tids, curator.name, FIRST_MOMENT + len(self.log), len(ops)))
        self.say(curator, "commit", "committed " + tids)

    def ask(self, curator):
        """Something that is asked of the history, or whose answer is a refusal, by one who has no transaction."""
        draw, kind = self.draw, self.draw.random()
        if kind < 0.1:
            self.say(curator, "commit", "refused commit: no operation")
        elif kind < 0.15:
            self.say(curator, "abort", "aborted 0")
        elif kind < 0.25:
            cause = "a transaction is open" if self.is_open() else "source S is there"
            self.say(curator, 'load S json "s.json"', "refused load: " + cause)
        elif kind < 0.4:
            tid = draw.randint(0, self.history.now + 1)
            self.say(curator, "records %d" % tid, lambda history: records_of(history, tid))
        elif kind < 0.5:
            self.say(curator, "stats", lambda history: ["stats: " + history.stats()])
        else:
            verb = draw.choice(VERBS)
            path = draw.choice(sorted(self.history.tree) + [("nowhere",)])
            self.say(curator, "%s %s" % (verb, spelled(("T",) + path)), lambda history: [answer(history, verb, path)])

    def play(self):
        self.say(self.curators[0], 'load S json "s.json"', "loaded S %d" % len(self.history.source))
        for _ in range(self.draw.randint(30, 60)):
            self.take_turn(self.draw.choice(self.curators))
        for curator in self.curators:
            while curator.session:
                self.go_on(curator)
            self.say(curator, "show T", lambda history: [answer(history, "show", ())])

    def take_turn(self, curator):
        if curator.session:
            self.go_on(curator)
        elif self.draw.random() < 0.6:
            curator.begin(self.history)
            self.go_on(curator)
        elif self.draw.random() < 0.1:
            self.statements.append("ins {c : 1} into T")
            self.lines.append("refused: syntax at 1")
        else:
            self.ask(curator)


def records_of(history, tid):
    records = [record for record in history.records if record[0] == tid]
    return [shown_record(record) for record in records] + ["records: %d" % len(records)]


def print_alone(kind, number, name, transaction, source):
    """The same transaction, told to a session of its own on the tree on which it began."""
    file = "t%d.json" % number
    statements = ['load S json "s.json"'] + [statement for statement, _ in transaction.told]
    lines = ["loaded S %d" % len(source)]
    for statement, told in transaction.told:
        lines += [line if "syntax" not in line else "refused: syntax at 1" for line in told]
    if transaction.failed is None:
        statements.append("show T")
        lines.append("show T: " + shown(transaction.tree_now()))
    statements.append("abort")
    lines.append("aborted %d" % len(transaction.ops))
    print("file %s -\n%s" % (file, text([as_json(transaction.begun)])))
    call("scratch %s %s" % (kind, file), lines, refuses(lines), statements)


def print_case(kind, number):
    shared = Shared(kind, number)
    shared.play()
    history = shared.history
    print("\ncase drawn input %d of three curators, on a store of the kind %s" % (number, kind))
    print("since 10")
    print("file t.json -\n" + text([as_json(shared.start)]))
    print("file s.json -\n" + text([as_json(history.source)]))
    call("init s %s t.json" % kind, ["created %s %d" % (kind, len(shared.start))], 0)
    print("words share s\nclock " + " ".join(str(FIRST_MOMENT + n) for n in range(len(shared.log) + 1)))
    print("in\n" + text(line + ";" for line in shared.statements))
    print("out\n" + text(shared.lines))
    print("status %d" % int(any("refused" in line.split()[:2] for line in shared.lines)))
    call("log s", shared.log + ["log: %d" % len(shared.log)], 0)
    call("verify s", ["agrees %d" % len(history.records)], 0)
    for number, (name, transaction) in enumerate(shared.ended, 1):
        print_alone(kind, number, name, transaction, history.source)


def main():
    count = int(sys.argv[1]) if len(sys.argv) > 1 else 10
    print("# Inputs of three curators, drawn, on stores of each kind; and each of their transactions by `scratch` alone, on the tree on")
    print("# which it began. As `model/interleave.py %d` prints it." % count)
    for kind in ("n", "t", "h", "ht"):
        for number in range(1, count + 1):
            print_case(kind, number)


if __name__ == "__main__":
    main()
