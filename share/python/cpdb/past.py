"""What happened at places: the effects that the program's records tell, with what stood there before and after.

Records are told in one form for all kinds, that of the kind `ht`: what the record of the place above implies is left out,
and a place that stayed the same below one that didn't is kept. What stands at places before and after a step comes from the
operations of the store's file, which are carried out here again.
"""
from typing import Callable, Dict, Iterator, List, NamedTuple, Optional, Sequence, Tuple, Union

from .replies import Record
from .spelling import Place, Tree
from .storefile import CommitEntry, Copy, Delete, Insert, Load, Operation, Start

__all__ = ["Content", "Event", "Past", "Trees", "content_of", "is_node", "size_of", "tree_of"]

Labels = Tuple[str, ...]


class Event(NamedTuple):
    """What a step did at a place.

    `what` is "inserted", "copied", "deleted", "lost" (a place above was replaced by something that has no such place) or
    "kept" (the same, below a place that isn't). `source` is where copied data comes from. Where the step did it to a place
    above, with what is below that, `above` is this place. `before` and `after` tell what stood there, where something did.
    """

    tid: int
    what: str
    place: Place
    source: Optional[Place]
    above: Optional[Place]
    before: Optional[str]
    after: Optional[str]


class _Node:
    """A node with its children and the number of its places. Where it is shared, others hold it too, and it stays as it is."""

    __slots__ = ("children", "size", "is_shared")

    def __init__(self, children: "Dict[str, Content]", size: int) -> None:
        self.children, self.size, self.is_shared = children, size, False


Content = Union[_Node, None, bool, int, str]


def size_of(content: Content) -> int:
    """How many places stand at a place and below it."""
    return content.size if isinstance(content, _Node) else 1


def is_node(content: Content) -> bool:
    """Whether a node stands at a place."""
    return isinstance(content, _Node)


def tree_of(content: Content) -> Tree:
    """The tree that stands at a place."""
    if not isinstance(content, _Node):
        return content
    return {label: tree_of(below) for label, below in sorted(content.children.items())}


def content_of(tree: Tree) -> Content:
    """A tree, as it stands at a place."""
    if not isinstance(tree, dict):
        return tree
    children = {label: content_of(below) for label, below in tree.items()}
    return _Node(children, 1 + sum(map(size_of, children.values())))


def _cloned(node: _Node) -> _Node:
    for below in node.children.values():
        if isinstance(below, _Node):
            below.is_shared = True
    return _Node(dict(node.children), node.size)


class Trees:
    """The tree T and the sources, to which operations are done. A copy shares its nodes until one of the two changes."""

    def __init__(self, start: Tree) -> None:
        self._roots: Dict[str, Content] = {"T": content_of(start)}

    def load(self, name: str, tree: Tree) -> None:
        """Adds a source."""
        self._roots[name] = content_of(tree)

    def find(self, place: Place) -> Optional[List[Content]]:
        """What stands at a place, in a list of its own, or None where nothing does."""
        if place.name not in self._roots:
            return None
        at = self._roots[place.name]
        for label in place.labels:
            if not isinstance(at, _Node) or label not in at.children:
                return None
            at = at.children[label]
        return [at]

    def kept(self, place: Place) -> Content:
        """What stands at a place, where something does; it stays as it is, whatever is done to the trees later."""
        found = self.find(place)
        if found is None:
            raise KeyError(str(place))
        if isinstance(found[0], _Node):
            found[0].is_shared = True
        return found[0]

    def labels(self, place: Place) -> List[str]:
        """The labels right below a place, none where no node stands there."""
        found = self.find(place)
        return list(found[0].children) if found and isinstance(found[0], _Node) else []

    def do(self, operation: Operation) -> None:
        """Carries out an operation that the program has accepted."""
        if isinstance(operation, Insert):
            self._put(operation.place / operation.label, content_of(operation.tree))
        elif isinstance(operation, Delete):
            way = self._way(operation.place)
            self._resize(way, -size_of(way[-1].children.pop(operation.label)))
        else:
            self._copy(operation)

    def _copy(self, operation: Copy) -> None:
        self._put(operation.target, self.kept(operation.source))

    def _put(self, place: Place, content: Content) -> None:
        if not place.labels:
            self._roots["T"] = content
            return
        way = self._way(Place("T", place.labels[:-1]))
        children = way[-1].children
        before = size_of(children[place.last]) if place.last in children else 0
        children[place.last] = content
        self._resize(way, size_of(content) - before)

    def _way(self, place: Place) -> List[_Node]:
        """The nodes from the root down to a place of T, none of them shared any more."""
        root = self._own(self._roots, "T")
        way = [root]
        for label in place.labels:
            way.append(self._own(way[-1].children, label))
        return way

    @staticmethod
    def _own(holder: Dict[str, Content], label: str) -> _Node:
        node = holder[label]
        assert isinstance(node, _Node)
        if node.is_shared:
            node = _cloned(node)
            holder[label] = node
        return node

    @staticmethod
    def _resize(way: List[_Node], change: int) -> None:
        for node in way:
            node.size += change


def _reduced(records: Sequence[Record]) -> Dict[Labels, Record]:
    """The records of a step without those that the record of the place above implies."""
    rows = {it.place.labels: it for it in records}
    return {at: it for at, it in rows.items() if not (at and _implies(rows.get(at[:-1]), it))}


def _implies(above: Optional[Record], row: Record) -> bool:
    if above is None or above.op != row.op:
        return False
    return row.op != "C" or (above.source is not None and above.source / row.place.last == row.source)


_WHAT = {"I": "inserted", "C": "copied", "D": "deleted", "K": "kept"}


class Past:
    """The steps of a history, carried out one after another; each answers what it did at a place and below it."""

    def __init__(self, start: Start, tell: Callable[[Content], str]) -> None:
        """A history from its start. `tell` gives the text that events have of what stood at a place."""
        self.kind, self.trees, self._tell = start.kind, Trees(start.tree), tell

    def stands(self, place: Place) -> bool:
        """Whether something stands at a place now."""
        return self.trees.find(place) is not None

    def load(self, entry: Load) -> None:
        """Goes on by a load."""
        self.trees.load(entry.name, entry.tree)

    def skip(self, entry: CommitEntry) -> None:
        """Goes on by a commit of which nothing is asked."""
        for operation in entry.operations:
            self.trees.do(operation)

    def commit(self, entry: CommitEntry, first: int, records: Callable[[int], Sequence[Record]], place: Place) -> List[Event]:
        """Goes on by a commit, with its first Tid and the records of each step, and answers what it did at a place of T."""
        if self.kind in ("t", "ht"):
            return list(self._step(first, records(first), entry.operations, place))
        return [event for tid, it in enumerate(entry.operations, first) for event in self._step(tid, records(tid), [it], place)]

    def _step(self, tid: int, records: Sequence[Record], operations: Sequence[Operation], place: Place) -> Iterator[Event]:
        rows = _reduced(records)
        concerned = [it for it in rows.values() if it.place.is_within(place)]
        before = {it.place: self._text(it.place) for it in concerned}
        before[place] = self._text(place)
        for operation in operations:
            self.trees.do(operation)
        if self.kind == "t":
            concerned += self._kept(tid, records, place)
        if place.labels not in rows:
            is_same = self.kind in ("n", "t") and all(it.place != place for it in records) and self.stands(place)
            yield from [] if is_same else self._from_above(tid, rows, place, before[place])
        for row in sorted(concerned, key=lambda it: it.place.labels):
            after = None if row.op in "DK" else self._text(row.place)
            yield Event(tid, _WHAT[row.op], row.place, row.source, None, None if row.op == "K" else before[row.place], after)

    def _kept(self, tid: int, records: Sequence[Record], place: Place) -> List[Record]:
        """In the kind `t`, which has no records of kept places: those without a record below one whose data has changed."""
        known = {it.place for it in records}
        changed = {it.place for it in records if it.op in "IC"}
        kept = [above / label for above in changed if above.is_within(place) for label in self.trees.labels(above)]
        if place.parent in changed and self.stands(place):
            kept.append(place)
        return [Record(tid, "K", it) for it in kept if it not in known]

    def _from_above(self, tid: int, rows: Dict[Labels, Record], place: Place, before: Optional[str]) -> Iterator[Event]:
        """What a step has done to a place by its record of a place above."""
        row = next((rows[place.labels[:it]] for it in range(len(place.labels) - 1, -1, -1) if place.labels[:it] in rows), None)
        if row is None or row.op == "K":
            return
        after = self._text(place)
        if after is not None:
            source = row.source and place.moved(row.place, row.source)
            yield Event(tid, _WHAT[row.op], place, source, row.place, before, after)
        elif before is not None:
            yield Event(tid, "deleted" if row.op == "D" else "lost", place, None, row.place, before, None)

    def _text(self, place: Place) -> Optional[str]:
        found = self.trees.find(place)
        return None if found is None else self._tell(found[0])
