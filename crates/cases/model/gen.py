#!/usr/bin/env python3
"""Works out what `gen SEED COUNT KIND` writes: the generator, and a replay of its operations.

    gen.py SEED COUNT KIND

Only the root and the places below it that an operation touches take part in a step: all others are the same, and leave no
record. Their effects and records come from the functions of `draw.py`.
"""
import sys

from draw import full_rows, reduced_rows


def operations(seed, count):
    """The operations: a word, and the labels that it speaks of."""
    x, labels, number = seed, [], 0
    for _ in range(count):
        x = (x * 6364136223846793005 + 1442695040888963407) % 2**64
        r = x >> 33
        if len(labels) < 4 or r % 4 == 0:
            yield "ins", "e%d" % number, None
            labels.append(number)
            number += 1
        elif r % 4 == 1:
            yield "take", "e%d" % labels[r // 64 % len(labels)], "g%d" % (r // 4 % 10)
        elif r % 4 == 2:
            source = labels[r // 4 % len(labels)]
            yield "copy", "e%d" % labels[r // 65536 % len(labels)], "e%d" % source
        else:
            yield "del", "e%d" % labels.pop(r // 4 % len(labels)), None


def subtree(places, label):
    return {path: places[path] for path in [(label,), (label, "a"), (label, "b")] if path in places}


def settle(kind, now, tree, ops):
    """Makes one step: changes the tree from path to past, and returns how many records it leaves."""
    touched = {label for op in ops for label in op[1:] if label}
    before = {(): ("node", [])}
    for label in touched:
        before.update((path, ("", past)) for path, past in subtree(tree, label).items())
    work = {path: ("", ("T", *path)) for path in before}
    for verb, label, source in ops:
        moved = {}
        if verb == "copy":
            moved = {(label, *path[1:]): it for path, it in subtree(work, source).items()}
        elif verb == "take":
            moved = {(label, *rest): ("", ("G", source, *rest)) for rest in [(), ("a",), ("b",)]}
        elif verb == "ins":
            moved = {(label,): ("", None)}
        for path in subtree(work, label):
            del work[path]
        work.update(moved)
    rows = full_rows(before, work) if kind in ("n", "t") else reduced_rows(before, work)
    for path in before:
        if path:
            del tree[path]
    for path, (_, origin) in work.items():
        if origin is None:
            tree[path] = [("born", now)]
        elif origin[0] == "G":
            tree[path] = [("copied", now)]
        elif path:
            past = before[origin[1:]][1]
            tree[path] = past if origin[1:] == path else past + [("copied", now)]
    return len(rows)


def gen(seed, count, kind):
    ops = list(operations(seed, count))
    tree, tid, records, commits = {}, 0, 0, 0
    for start in range(0, count, 10):
        transaction = ops[start : start + 10]
        commits += 1
        for step in [[op] for op in transaction] if kind in ("n", "h") else [transaction]:
            tid += 1
            records += settle(kind, tid, tree, step)
    pasts = list(tree.values())
    born = sum(past[0][0] == "born" for past in pasts)
    copies = sum(event[0] == "copied" for past in pasts for event in past)
    numbers = (kind, tid, commits, records, len(tree) + 1)
    return [
        "stats: kind %s, tid %d, transactions %d, records %d, nodes %d, sources 1" % numbers,
        "gen: places %d, born %d, copies %d" % (len(tree) + 1, born, copies),
    ]


if __name__ == "__main__":
    print("\n".join(gen(int(sys.argv[1]), int(sys.argv[2]), sys.argv[3])))
