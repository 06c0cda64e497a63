"""Drawn transactions, with the trees that naive states have after each operation; it is no test itself."""
import copy
import random

import cpdb
from checking import path, problem, run

CURATORS = ["Ada", 'Bo "B" /~', ""]


def places_of(tree):
    return [place for place, _ in cpdb.walk(cpdb.Place("T"), tree)]


def at(trees, place):
    """What stands at a place of naive trees, in a list, or None."""
    tree = trees[place.name]
    for label in place.labels:
        if not isinstance(tree, dict) or label not in tree:
            return None
        tree = tree[label]
    return [tree]


def insert(trees, place, label, tree):
    """Does an insertion to naive trees; answers its statement. So do `delete` and `replace`."""
    at(trees, place)[0][label] = copy.deepcopy(tree)
    return cpdb.insert_text(place, label, tree)


def delete(trees, place):
    del at(trees, place.parent)[0][place.last]
    return cpdb.delete_text(place.parent, place.last)


def replace(trees, source, target):
    found = copy.deepcopy(at(trees, source)[0])
    if target.labels:
        at(trees, target.parent)[0][target.last] = found
    else:
        trees["T"] = found
    return cpdb.copy_text(source, target)


def drawn(draw, trees):
    """An operation that can be done to the trees, as a statement; and does it to them. None where the drawn one can't be."""
    places = places_of(trees["T"])
    choice = draw.randrange(5)
    if choice == 0 or len(places) < 4:
        nodes = [it for it in places if isinstance(at(trees, it)[0], dict) and len(it.labels) < 6]
        if nodes:
            place, label, tree = draw.choice(nodes), f"l{draw.randrange(6)}", draw.choice([1, "x", {}, {"l1": {"l2": None}, "l3": 5}])
            if label not in at(trees, place)[0]:
                return insert(trees, place, label, tree)
    elif choice == 1:
        return delete(trees, draw.choice(places[1:]))
    source = draw.choice(places + [cpdb.Place("P"), cpdb.Place("P", ("l1",)), cpdb.Place("P", ("l2", "l3"))])
    target = draw.choice(places if draw.randrange(8) == 0 else places[1:] or places)
    if len(places) + len(places_of(at(trees, source)[0])) > 60 or len(target.labels) > 5:
        return None
    return replace(trees, source, target)


def kept(draw, trees):
    """Statements that replace a node by the source's root, and put what stood below it back; none where there is no such node."""
    nodes = [it for it in places_of(trees["T"]) if it.labels and isinstance(at(trees, it)[0], dict) and at(trees, it)[0]]
    if not nodes or not isinstance(trees["T"], dict) or "tmp" in trees["T"]:
        return []
    root, above, away = cpdb.Place("T"), draw.choice(nodes), cpdb.Place("T", ("tmp",))
    label = draw.choice(sorted(at(trees, above)[0]))
    statements = []
    for do, *words in ((insert, root, "tmp", {}), (replace, above, away), (replace, cpdb.Place("P"), above), (insert, above, label, {}),
                       (replace, away / label, above / label), (delete, away)):
        if do is not insert or words[1] not in at(trees, words[0])[0]:
            statements.append((do(trees, *words), copy.deepcopy(trees["T"])))
    return statements


def script(seed):
    """Transactions of drawn operations, each with the trees after it."""
    draw, source = random.Random(seed), {"l1": {"l2": "deep", "l4": True}, "l2": {"l3": {"l1": 7}}, "l9": "leaf"}
    trees = {"T": {}, "P": source}
    transactions = []
    for _ in range(12):
        done = kept(draw, trees) if draw.randrange(3) == 0 else []
        while len(done) < draw.choice([1, 3, 5]):
            statement = drawn(draw, trees)
            if statement:
                done.append((statement, copy.deepcopy(trees["T"])))
        transactions.append(done)
    return source, transactions


def store_of(seed, kind, source, transactions):
    """A store of a kind with a script's transactions, by curators in turn."""
    with open(path("source.json"), "w") as file:
        file.write(cpdb.tree_text(source).replace(" : ", '": ').replace("{l", '{"l').replace(", l", ', "l'))
    store = path(f"{seed}-{kind}.cpdb")
    cpdb.init(store, kind)
    run(store, "", [f'load P json "{path("source.json")}"'])
    for number, done in enumerate(transactions):
        for lines in run(store, CURATORS[number % len(CURATORS)], [*(it for it, _ in done), "commit"]):
            if any(it.startswith("refused") for it in lines):
                problem(f"seed {seed}: {lines}")
    return store


class Commits:
    """The versions of a script in a kind of store: the naive trees of all, and the first and the last step of each commit."""

    def __init__(self, kind, transactions):
        self.trees, self.spans = [{}], []
        for done in transactions:
            first = len(self.trees)
            self.trees += [tree for _, tree in (done if kind in "nh" else done[-1:])]
            self.spans.append((first, len(self.trees) - 1))

    @property
    def last(self):
        return len(self.trees) - 1


def contents_of(tree):
    """What stands at each place of a tree, without what is below it: the spelling of a value, or `{}`."""
    return {place: "{}" if isinstance(it, dict) else cpdb.tree_text(it) for place, it in cpdb.walk(cpdb.Place("T"), tree)}
