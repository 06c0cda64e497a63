#!/usr/bin/env python3
"""Draws stores, and works out what each version of them answers.

    versions.py [COUNT]     writes the cases of COUNT drawn stores of each kind (8 without a number)

The sessions are those of `draw.py`, of several commits. Each version is worked out from the start, by a replay of the steps up to
it alone over trees whose places carry their whole past: nothing of the steps after it is looked at, and no record. Each case asks
a version of the store with `at`, and then runs the script of these steps alone with `scratch`, which has to answer the same. In
the kinds n and h the script ends inside a commit where the version does. What is asked is the whole tree, and a place that is there
in some version, by each query in turn. The ranges are counted by comparing the trees of all versions one after another.
"""
import random
import sys

from draw import Script, Session, as_json, shown, spelled, text

VERBS = ("show", "src", "hist", "mod", "trace", "from")


class Recorded(Session):
    """A session that keeps the operations of each commit."""

    def __init__(self, kind, tree, source):
        super().__init__(kind, tree, source)
        self.begun, self.made = tree, []

    def commit(self):
        self.made.append(list(self.ops))
        super().commit()

    def version(self, tid):
        """The session of the first steps alone."""
        session, left = Session(self.kind, self.begun, self.source), tid
        for ops in self.made:
            steps = len(ops) if self.kind in ("n", "h") else 1
            if left > 0:
                for op in ops if left >= steps else ops[:left]:
                    session.apply(op)
                session.commit()
            left -= steps
        return session


def answer(session, verb, path):
    place = spelled(("T",) + path)
    if path not in session.tree:
        return "refused: no place " + place
    if verb == "show":
        told = shown({at: content for at, (content, _) in session.tree.items()}, path)
    elif verb == "src":
        told = session.src(path) or "none"
    elif verb in ("hist", "mod"):
        told = " ".join(map(str, getattr(session, verb)(path))) or "none"
    elif verb == "trace":
        segments, end = session.trace(path)
        told = " < ".join(["%s@%d..%d" % (spelled(at), low, high) for at, low, high in segments] + [end])
    else:
        told = session.origin(path)
    return "%s %s: %s" % (verb, place, told)


class Drawn:
    """A script of several commits: the statements of each, and the session that they lead to."""

    def __init__(self, kind, number):
        draw = random.Random(number)
        script = Script(draw, random.Random(number + 1000), kind)
        self.session = script.session = Recorded(kind, script.start, script.session.source)
        self.first, self.commits = script.statements[:], []
        for _ in range(draw.randint(3, 6)):
            begun = len(script.statements)
            for _ in range(draw.randint(1, 7)):
                script.step()
            if len(script.statements) == begun:
                script.copy("T", (), ())
            self.commits.append(script.statements[begun:])
            self.session.commit()

    def committed(self):
        """The lines of all commits."""
        tid, lines = 0, []
        for ops in self.commits:
            low, tid = tid + 1, tid + (len(ops) if self.session.kind in ("n", "h") else 1)
            lines.append("committed %d" % low if low == tid else "committed %d..%d" % (low, tid))
        return lines

    def upto(self, tid):
        """The statements of the first steps alone, and the lines of their commits."""
        tids, statements, lines = 0, self.first[:], []
        for ops in self.commits:
            steps = len(ops) if self.session.kind in ("n", "h") else 1
            kept = ops if steps <= tid - tids else ops[: max(tid - tids, 0)] if steps > 1 else []
            if kept:
                low, high = tids + 1, min(tids + steps, tid)
                statements += kept + ["commit"]
                lines.append("committed %d" % low if low == high else "committed %d..%d" % (low, high))
            tids += steps
        return statements, lines


def ranges(sessions):
    count, before = 0, {}
    for session in sessions:
        now = {path: content for path, (content, _) in session.tree.items()}
        count += sum(before.get(path) != content for path, content in now.items())
        before = now
    return count


def call(words, output, status, given=None):
    print("words " + words)
    if given is not None:
        print("in\n" + text(line + ";" for line in given))
    print("out\n" + text(output))
    print("status %d" % status)


def refuses(lines):
    return int(any(line.startswith("refused") for line in lines))


def print_case(kind, number):
    drawn, more = Drawn(kind, number), random.Random(number + 3000)
    session = drawn.session
    sessions = [session.version(tid) for tid in range(session.now + 1)]
    ever = sorted({path for it in sessions for path in it.tree})
    loaded = "loaded S %d" % len(session.source)
    print("\ncase drawn store %d in kind %s, of each version" % (number, kind))
    print("since 10")
    print("file t.json -\n" + text([as_json(session.begun)]))
    print("file s.json -\n" + text([as_json(session.source)]))
    call("init s %s t.json" % kind, ["created %s %d" % (kind, len(session.begun))], 0)
    given = drawn.first + [statement for ops in drawn.commits for statement in ops + ["commit"]]
    call("run s", [loaded] + drawn.committed(), 0, given)
    for tid, it in enumerate(sessions):
        asked = [("show", ())] + [(VERBS[(tid + n) % len(VERBS)], more.choice(ever)) for n in range(2)]
        answers = [answer(it, verb, path) for verb, path in asked]
        texts = ["%s %s" % (verb, spelled(("T",) + path)) for verb, path in asked]
        for words, told in zip(texts, answers):
            call('at s %d "%s"' % (tid, words), [told], refuses([told]))
        statements, lines = drawn.upto(tid)
        call("scratch %s t.json" % kind, [loaded] + lines + answers, refuses(answers), statements + texts)
    for tid in (session.now + 1, 2**64 - 1):
        call("at s %d show" % tid, ["refused: no version %d" % tid], 1)
    call("archive s", ["archive: versions %d, ranges %d" % (len(sessions), ranges(sessions))], 0)


def main():
    count = int(sys.argv[1]) if len(sys.argv) > 1 else 8
    print("# What each version of a store answers: drawn stores of each kind, each version by `at`, and by `scratch` of the statements up to")
    print("# it alone. As `model/versions.py %d` prints it." % count)
    for kind in ("n", "t", "h", "ht"):
        for number in range(1, count + 1):
            print_case(kind, number)


if __name__ == "__main__":
    main()
