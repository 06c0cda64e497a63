"""What stands in T and in the sources, as far as it was asked for: for completion, and for `set` and `add`.

A whole tree is asked of the session by `show` when its labels are first wanted, and kept. An operation makes a copy of the
nodes on its way, so that the committed tree stays as it was, and leaves what it writes to be asked for.
"""
from typing import Callable, Dict, Tuple, Union, cast

from cpdb import Place, Refused, Tree


class _Mark:
    """Stands where a tree would."""


_UNASKED = _Mark()
#: Nothing stands at this place.
MISSING = _Mark()

_Known = Union[Tree, _Mark]


class Mirror:
    """The trees of a session, kept by being told of each operation that was accepted."""

    def __init__(self, show: Callable[[Place], Tree]) -> None:
        self._show = show
        self._committed: _Known = _UNASKED
        self._now: _Known = _UNASKED
        self._sources: Dict[str, _Known] = {}

    def at(self, place: Place) -> _Known:
        """The tree at a place, or MISSING. It is asked for alone where the whole of T isn't known, and isn't kept then."""
        if place.name == "T" and place.labels and self._now is _UNASKED:
            return self._ask(place)
        return self.within_whole(place)

    def within_whole(self, place: Place) -> _Known:
        """The tree at a place, or MISSING, after the whole tree in which it lies was asked for."""
        if place.name != "T":
            return self._at_source(place)
        if self._now is _UNASKED:
            self._now = self._ask(Place("T"))
        tree = self._now
        for index, label in enumerate(place.labels):
            node = _node(tree)
            if label not in node:
                return MISSING
            if node[label] is _UNASKED:
                node[label] = self._ask(Place("T", place.labels[: index + 1]))
            tree = node[label]
        return tree

    def written(self, place: Place) -> None:
        """Something was written at a place of T."""
        self._now = _with(self._now, place.labels, _UNASKED)

    def removed(self, place: Place) -> None:
        """What stood at a place of T, and all below it, was deleted."""
        self._now = _with(self._now, place.labels, MISSING)

    def settled(self) -> None:
        """What stands in T now is committed."""
        self._committed = self._now

    def given_up(self) -> None:
        """The transaction was given up, or has failed: the tree is that of the last commit."""
        self._now = self._committed

    def outdated(self, is_going: bool) -> None:
        """Somebody else has committed. A transaction that is going goes on from the tree on which it began."""
        self._committed = _UNASKED
        if not is_going:
            self._now = _UNASKED

    def _ask(self, place: Place) -> _Known:
        try:
            return self._show(place)
        except Refused:
            return MISSING

    def _at_source(self, place: Place) -> _Known:
        if place.name not in self._sources:
            found = self._ask(Place(place.name))
            if found is MISSING:
                return MISSING
            self._sources[place.name] = found
        tree = self._sources[place.name]
        for label in place.labels:
            tree = _node(tree).get(label, MISSING)
        return tree


def _node(tree: _Known) -> "Dict[str, _Known]":
    """The children of a node, among which may be some to be asked for; of anything else none."""
    return cast("Dict[str, _Known]", tree) if isinstance(tree, dict) else {}


def _with(tree: _Known, labels: Tuple[str, ...], below: _Known) -> _Known:
    """A tree with something else below these labels, of which the nodes on the way are copies."""
    if not labels:
        return below
    if not isinstance(tree, dict):
        return tree
    copy = dict(_node(tree))
    if labels[0] not in copy and len(labels) > 1:
        return cast(Tree, copy)
    found = _with(copy.get(labels[0], MISSING), labels[1:], below)
    if found is MISSING:
        copy.pop(labels[0], None)
    else:
        copy[labels[0]] = found
    return cast(Tree, copy)
