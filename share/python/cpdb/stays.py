"""Where data has ever stood, found by carrying out the operations of a store's file again: a place from one step to another.

What stands now the program answers itself (`Session.traces`). This tells the same also of what was deleted or replaced, of
which no query asks; `Stays.trace` is the trace that the program gave as long as the data stood there.
"""
from typing import Dict, Iterable, Iterator, List, NamedTuple, Optional, Tuple, Union

from .replies import End, Segment, Trace
from .spelling import Place, Tree
from .storefile import CommitEntry, Copy, Delete, Insert, Load, Operation, Start, entries_of
from .versions import target_of, topmost

__all__ = ["Ended", "Stay", "Stays"]


class Stay:
    """Data at a place from a step on: `older` is the stay from which it was copied, or how its past begins."""

    __slots__ = ("place", "low", "older")

    def __init__(self, place: Place, low: int, older: "Union[Stay, End]") -> None:
        self.place, self.low, self.older = place, low, older

    def trace(self, high: int) -> Trace:
        """The trace of the place in a version up to which the data stood there."""
        segments, at = [Segment(self.place, self.low, high)], self
        while isinstance(at.older, Stay):
            segments.append(Segment(at.older.place, at.older.low, at.low - 1))
            at = at.older
        return Trace(segments, at.older)


class Ended(NamedTuple):
    """A stay that a step has ended, and what stood there: a value, or `{}` for a node."""

    stay: Stay
    step: int
    value: Tree

    def trace(self) -> Trace:
        """The trace of the place in the last version of the stay."""
        return self.stay.trace(self.step - 1)


#: Whence the data of a place comes within a step: where it stood as the step began, or how its past begins.
_Origin = Union[Stay, End]


class _Spot:
    """A place of T. One that the step has made has an origin, and no stay until the step ends."""

    __slots__ = ("value", "children", "stay", "origin")

    def __init__(self, tree: Tree) -> None:
        self.value: Tree = {} if isinstance(tree, dict) else tree
        self.children: Dict[str, _Spot] = {}
        self.stay: Optional[Stay] = None
        self.origin: Optional[_Origin] = None

    def walk(self, place: Place) -> "Iterator[Tuple[Place, _Spot]]":
        """This and all below it, with their places."""
        yield place, self
        for label, below in self.children.items():
            yield from below.walk(place / label)

    def copied(self) -> "_Spot":
        """The same, made by the step that is under way."""
        made = _Spot(self.value)
        made.origin = self.stay or self.origin
        made.children = {label: below.copied() for label, below in self.children.items()}
        return made


def _spot_of(tree: Tree, origin: End) -> _Spot:
    """A tree whose data begins so, at each place with its labels where that is a place of a source."""
    made = _Spot(tree)
    made.origin = origin
    if isinstance(tree, dict):
        made.children = {label: _spot_of(below, origin if origin.place is None else origin._replace(place=origin.place / label))
                         for label, below in tree.items()}
    return made


class Stays:
    """The stays of a store's history. `ended` goes through it once; then `now` has those that go on."""

    def __init__(self, copy: str) -> None:
        self._entries = entries_of(copy)
        start = next(self._entries)
        assert isinstance(start, Start)
        self._kind, self._step, self._sources = start.kind, 0, {}  # type: str, int, Dict[str, Tree]
        self._root = _spot_of(start.tree, End("start"))
        self._settle(Place("T"), 0)

    def now(self, place: Place = Place("T")) -> Iterator[Stay]:
        """The stays at a place and below it that go on, in no certain order."""
        found = self._find(place)
        for _, spot in found.walk(place) if found else ():
            assert spot.stay is not None
            yield spot.stay

    def ended(self) -> Iterator[Ended]:
        """The stays that steps have ended, step by step."""
        for entry in self._entries:
            if isinstance(entry, Load):
                self._sources[entry.name] = entry.tree
            elif isinstance(entry, CommitEntry):
                one_by_one = self._kind in ("n", "h")
                for operations in ([it] for it in entry.operations) if one_by_one else [entry.operations]:
                    yield from self._do(operations)

    def _do(self, operations: List[Operation]) -> Iterator[Ended]:
        self._step += 1
        touched = topmost(target_of(it) for it in operations)
        before = [(spot.stay, spot.value) for place in touched for _, spot in self._below(place)]
        for operation in operations:
            self._carry_out(operation)
        kept = {stay for place in touched for stay in self._settle(place, self._step)}
        for stay, value in before:
            assert stay is not None
            if stay not in kept:
                yield Ended(stay, self._step, value)

    def _below(self, place: Place) -> Iterable[Tuple[Place, _Spot]]:
        found = self._find(place)
        return found.walk(place) if found else ()

    def _settle(self, place: Place, step: int) -> Iterator[Stay]:
        """Gives each place that a step has made its stay: the one that it had where its data is the same. Answers all."""
        found = []
        for at, spot in self._below(place):
            if spot.stay is None:
                assert spot.origin is not None
                is_same = isinstance(spot.origin, Stay) and spot.origin.place == at
                spot.stay = spot.origin if is_same else Stay(at, step, spot.origin)  # type: ignore[assignment]
                spot.origin = None
            found.append(spot.stay)
        return iter(found)  # type: ignore[arg-type]

    def _carry_out(self, operation: Operation) -> None:
        if isinstance(operation, Insert):
            self._put(operation.place / operation.label, _spot_of(operation.tree, End("new")))
        elif isinstance(operation, Delete):
            above = self._find(operation.place)
            assert above is not None
            del above.children[operation.label]
        else:
            assert isinstance(operation, Copy)
            self._put(operation.target, self._copied(operation.source))

    def _copied(self, source: Place) -> _Spot:
        if source.name == "T":
            found = self._find(source)
            assert found is not None
            return found.copied()
        tree = self._sources[source.name]
        for label in source.labels:
            assert isinstance(tree, dict)
            tree = tree[label]
        return _spot_of(tree, End("copy", source))

    def _put(self, place: Place, spot: _Spot) -> None:
        if place.parent is None:
            self._root = spot
            return
        above = self._find(place.parent)
        assert above is not None
        above.children[place.last] = spot

    def _find(self, place: Place) -> Optional[_Spot]:
        at: Optional[_Spot] = self._root
        for label in place.labels:
            at = at.children.get(label) if at else None
        return at
