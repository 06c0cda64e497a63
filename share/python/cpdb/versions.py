"""T in its versions: what stood at places in a version, and what differs between two, by the commits that made the difference.

Version 0 is the start tree, version t the tree after step t. `Course` alone finds what stood in a version: it carries out the
operations of the store's file again.
"""
from typing import Dict, Iterable, Iterator, List, NamedTuple, Optional, Sequence, Tuple, Union

from .past import Content, Trees, is_node, size_of
from .replies import Commit
from .spelling import Place, label_text
from .storefile import CommitEntry, Delete, Entry, Insert, Load, Operation, Start, entries_of
from .tool import Commits, Failure, date_of, moment_of, steps_text, told

__all__ = ["Change", "Changes", "Course", "Difference", "NOTHING", "Nothing", "Span", "Standing", "at_labels", "at_place",
           "below", "commit_told", "differences", "is_same", "is_same_value", "last_told", "topmost", "version_of", "version_told"]


class Nothing:
    """That nothing stands at a place."""

    def __repr__(self) -> str:
        return "NOTHING"


NOTHING = Nothing()
#: What stands at a place, where something does.
Standing = Union[Content, Nothing]


class Difference(NamedTuple):
    """A place at which one tree has something else than another one, or only one of them has anything.

    What is below the place isn't compared: where both have a node there is no difference, and else only one has places below.
    """

    place: Place
    before: Standing
    after: Standing

    @property
    def what(self) -> str:
        """`added`, `removed` or `changed`."""
        if self.before is NOTHING:
            return "added"
        return "removed" if self.after is NOTHING else "changed"

    @property
    def size(self) -> int:
        """How many places differ: this one, and those below it."""
        return max(size_of(it) for it in (self.before, self.after) if not isinstance(it, Nothing))

    def within(self, place: Place) -> "Optional[Difference]":
        """What this says of another place and those below it: the same, or what it implies there, or None."""
        if self.place.is_within(place):
            return self
        if not place.is_within(self.place):
            return None
        labels = place.labels[len(self.place.labels):]
        found = Difference(place, at_labels(self.before, labels), at_labels(self.after, labels))
        return None if found.before is found.after is NOTHING else found

    def told(self, longest: Optional[int] = None) -> str:
        """The difference in words, with what stands there in at most so many characters."""
        after = "" if isinstance(self.after, Nothing) else f" : {told(self.after, longest)}"
        before = "" if isinstance(self.before, Nothing) else f", was {told(self.before, longest)}"
        return f"{self.what} {self.place}{after}{before}"


def is_same_value(one: Standing, other: Standing) -> bool:
    """Whether two contents are the same value: 1 and true aren't, though Python calls them equal."""
    return not is_node(one) and type(one) is type(other) and one == other  # type: ignore[arg-type]


def below(content: Standing, label: str) -> Standing:
    """What stands at a label below a content."""
    if not isinstance(content, Nothing) and is_node(content):
        return content.children.get(label, NOTHING)  # type: ignore[union-attr]
    return NOTHING


def _labels_below(content: Standing) -> Iterable[str]:
    return content.children if _is_node(content) else ()  # type: ignore[union-attr]


def at_labels(content: Standing, labels: Sequence[str]) -> Standing:
    """What stands at labels, one below the other, below a content."""
    for label in labels:
        content = below(content, label)
    return content


def at_place(trees: Trees, place: Place) -> Standing:
    """What stands at a place of trees."""
    found = trees.find(place)
    return found[0] if found else NOTHING


def differences(place: Place, before: Standing, after: Standing) -> Iterator[Difference]:
    """How what stands at a place and below it differs between two trees, in the order of places.

    It costs the children of the nodes that differ: what the two trees share isn't looked at.
    """
    if before is after:
        return
    if not (_is_node(before) and _is_node(after)):
        if not is_same_value(before, after):
            yield Difference(place, before, after)
        return
    old, new = before.children, after.children  # type: ignore[union-attr]
    labels = [label for label, it in new.items() if old.get(label, NOTHING) is not it]
    labels += [label for label in old if label not in new]
    for label in sorted(labels):
        yield from differences(place / label, old.get(label, NOTHING), new.get(label, NOTHING))


def _is_node(content: Standing) -> bool:
    return not isinstance(content, Nothing) and is_node(content)


def is_same(one: Standing, other: Standing) -> bool:
    """Whether the same tree stands in two places, or nothing in both."""
    return next(differences(Place("T"), one, other), None) is None


class Span(NamedTuple):
    """What a commit did between two versions: the differences that it made."""

    commit: Commit
    differences: List[Difference]


class Course:
    """The trees of a store's file from version to version, from the start on.

    `trees` has T, and the sources that were loaded before the first step after the version that was reached.
    """

    def __init__(self, copy: str, commits: Optional[Commits] = None) -> None:
        self.commits = Commits(copy) if commits is None else commits
        self._entries = entries_of(copy)
        start = next(self._entries)
        assert isinstance(start, Start)
        self.kind, self.trees, self.version = start.kind, Trees(start.tree), 0
        self._number = 0
        self._left: List[Operation] = []
        self._next: Optional[Entry] = None
        self._take_loads()

    def tree(self) -> Content:
        """T in the version that was reached, which stays as it is when the course goes on."""
        return self.trees.kept(Place("T"))

    def reach(self, version: int) -> Content:
        """Goes on to a version, and answers T in it."""
        for _ in self._parts(version):
            pass
        return self.tree()

    def go(self, version: int) -> Iterator[Span]:
        """Goes on to a version, and yields for each commit on the way the differences that it made.

        It costs what differs, and for each operation the depth of its place.
        """
        for commit, operations in self._parts(version, by_hand=True):
            touched = topmost(target_of(it) for it in operations)
            before = {place: self._kept(place) for place in touched}
            self._do(operations)
            found = [it for place in touched for it in differences(place, before[place], self._kept(place))]
            yield Span(commit, found)

    def _kept(self, place: Place) -> Standing:
        return NOTHING if self.trees.find(place) is None else self.trees.kept(place)

    def _do(self, operations: Iterable[Operation]) -> None:
        for operation in operations:
            self.trees.do(operation)

    def _parts(self, version: int, by_hand: bool = False) -> Iterator[Tuple[Commit, List[Operation]]]:
        """The operations up to a version, commit by commit, which are done here or by hand."""
        assert self.version <= version <= self.commits.last
        while self.version < version:
            if not self._left:
                self._begin()
            commit = self.commits.all[self._number - 1]
            steps = min(version, commit.last) - self.version
            count = steps if self.kind in ("n", "h") else len(self._left)
            operations, self._left = self._left[:count], self._left[count:]
            self.version += steps
            if not by_hand:
                self._do(operations)
            yield commit, operations
            if not self._left:
                self._take_loads()

    def _begin(self) -> None:
        entry = self._next
        assert isinstance(entry, CommitEntry)
        self._number, self._left, self._next = self._number + 1, entry.operations, None

    def _take_loads(self) -> None:
        for entry in self._entries:
            if not isinstance(entry, Load):
                self._next = entry
                return
            self.trees.load(entry.name, entry.tree)


def target_of(operation: Operation) -> Place:
    """The place at which an operation makes a difference."""
    if isinstance(operation, (Insert, Delete)):
        return operation.place / operation.label
    return operation.target


def topmost(places: Iterable[Place]) -> List[Place]:
    """The places of T that lie below no other one of these, in their order, each once."""
    found: List[Place] = []
    for place in sorted(set(places)):
        if not found or not place.is_within(found[-1]):
            found.append(place)
    return found


class Change(NamedTuple):
    """A difference between two versions, with the last commit that made one at its place.

    It is true of `count` places: of its own, and of those below it that have no row of their own.
    """

    difference: Difference
    commit: Commit
    count: int


class _Mark(NamedTuple):
    """What a commit, by its number, had before and after it at a place."""

    number: int
    before: Standing
    after: Standing


class _Spot:
    """The marks at a place, and at those below it."""

    __slots__ = ("marks", "children")

    def __init__(self) -> None:
        self.marks: List[_Mark] = []
        self.children: Dict[str, _Spot] = {}


class Changes:
    """What commits did, one after another, by place."""

    def __init__(self) -> None:
        self._root = _Spot()
        self._commits: List[Commit] = []

    def add(self, span: Span) -> None:
        """Goes on by a commit."""
        number = len(self._commits)
        self._commits.append(span.commit)
        for difference in span.differences:
            spot = self._root
            for label in difference.place.labels:
                spot = spot.children.setdefault(label, _Spot())
            spot.marks.append(_Mark(number, difference.before, difference.after))

    def commits_at(self, place: Place) -> List[Commit]:
        """The commits that made a difference at a place, above it so that it shows there, or below it."""
        numbers = set()
        spot: Optional[_Spot] = self._root
        for depth in range(len(place.labels) + 1):
            assert spot is not None
            for mark in spot.marks:
                if any(at_labels(it, place.labels[depth:]) is not NOTHING for it in (mark.before, mark.after)):
                    numbers.add(mark.number)
            spot = spot.children.get(place.labels[depth]) if depth < len(place.labels) else spot
            if spot is None:
                break
        waiting = [spot] if spot else []
        while waiting:
            spot = waiting.pop()
            numbers.update(it.number for it in spot.marks)
            waiting += spot.children.values()
        return [self._commits[it] for it in sorted(numbers)]

    def of(self, found: Iterable[Difference]) -> Iterator[Change]:
        """The differences between the first version and the last one, each with the last commit that made one at its place.

        A place below has a row of its own where another commit was the last one there.
        """
        for difference in found:
            spot: Optional[_Spot] = self._root
            active: List[_Mark] = []
            for label in difference.place.labels:
                active = _active(active, spot, label)
                spot = spot.children.get(label) if spot else None
            rows = list(self._below(difference, spot, active, None))
            for (one, number), count in zip(rows, _own_sizes([it for it, _ in rows])):
                yield Change(one, self._commits[number], count)

    def _below(self, difference: Difference, spot: Optional[_Spot], active: List[_Mark],
               above: Optional[int]) -> Iterator[Tuple[Difference, int]]:
        """The differences at a place and below it, each with the number of its commit, where that isn't the one above.

        `active` are the marks of places above that show here, by their commits.
        """
        if spot and spot.marks:
            active = sorted(active + spot.marks, key=lambda it: it.number)
        number = active[-1].number
        if number != above:
            yield difference, number
        labels: Iterable[str] = spot.children if spot else ()
        if len(active) > 1:
            labels = [*_labels_below(difference.before), *_labels_below(difference.after)]
        for label in sorted(labels):
            one = Difference(difference.place / label, below(difference.before, label), below(difference.after, label))
            if one.before is not one.after:
                yield from self._below(one, spot.children.get(label) if spot else None, _active_below(active, label), number)


def _own_sizes(rows: Sequence[Difference]) -> List[int]:
    """How many places each of these differences has that none below it has; each stands before those below it."""
    sizes = [it.size for it in rows]
    above: List[int] = []
    for number, row in enumerate(rows):
        while above and not row.place.is_within(rows[above[-1]].place):
            above.pop()
        if above:
            sizes[above[-1]] -= row.size
        above.append(number)
    return sizes


def _active(active: List[_Mark], spot: Optional[_Spot], label: str) -> List[_Mark]:
    """The marks at a place and above it that show at a label below it."""
    if spot and spot.marks:
        active = sorted(active + spot.marks, key=lambda it: it.number)
    return _active_below(active, label)


def _active_below(active: List[_Mark], label: str) -> List[_Mark]:
    moved = [_Mark(it.number, below(it.before, label), below(it.after, label)) for it in active]
    return [it for it in moved if it.before is not it.after]


# Words that name versions


def version_of(word: str, commits: Commits, is_end: bool) -> int:
    """The version that a word names: its number, or by a date that before its first commit, or as an end after its last one."""
    if word.isascii() and word.isdigit():
        if int(word) > commits.last:
            hint = f"; a date has its month too, as {word}-01" if len(word) == 4 else ""
            raise Failure(f"there is no version {word}: {last_told(commits)}{hint}")
        return int(word)
    try:
        moment = moment_of(word, is_end)
    except Failure:
        raise Failure(f"{word} is neither a version, as 7, nor a date, as 2026-12-01 or 2026-12-01T08:30:00Z", 2) from None
    if is_end:
        return max((it.last for it in commits.all if it.moment <= moment), default=0)
    return min((it.first - 1 for it in commits.all if it.moment >= moment), default=commits.last)


def last_told(commits: Commits) -> str:
    """Which step is the last, in words."""
    return f"the last one is {commits.last}" if commits.last else "nothing is committed yet"


def version_told(version: int, commits: Commits) -> str:
    """A version in words, with its commit."""
    if version == 0:
        return "version 0, the start"
    commit = commits.of(version)
    where = "after" if version == commit.last else "within"
    return f"version {version}, {where} {commit_told(commit)}"


def commit_told(commit: Commit) -> str:
    """A commit in words: its steps, its curator and its date."""
    return f"commit {steps_text(commit)} by {label_text(commit.curator)} at {date_of(commit.moment)}"
