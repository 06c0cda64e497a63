"""The versions of T, from the newest back: of each what stood, before its step, at the places where the step changed something.

So the page goes from the tree of now to the one before, and on, and has only what isn't in the tree of now. A content that
stands in T or in a source that is whole in the page is told by its place there, and any other one once.
"""
from typing import Dict, Iterable, Iterator, List, NamedTuple, Optional, Tuple, Union

import cpdb
from cpdb import Place
from cpdb.past import Content, Trees, is_node, size_of
from cpdb.versions import Course, Nothing, Standing

# How many versions, changes and contents, and how many characters of these, a page has. Older versions are left out.
MOST_CHANGES, MOST_TEXT = 100_000, 4_000_000


class Branch(NamedTuple):
    """A node that stands nowhere in the page: its labels, each with the number of what stands below it."""

    children: List[Tuple[str, int]]


class Leaf(NamedTuple):
    """A value."""

    value: cpdb.Tree


#: What stood somewhere: a node, a value, or the same as what stands at a place of the page.
Kept = Union[Branch, Leaf, Place]
#: A place that a step changed, with the number of what stood there before, or None.
Undone = Tuple[Place, Optional[int]]


class Versions(NamedTuple):
    """What the steps changed, from the one after the version `oldest` on, and the contents, each after those below it."""

    oldest: int
    steps: List[List[Undone]]
    contents: List[Kept]


class _Contents:
    """The contents that are told, each once."""

    def __init__(self, standing: Iterable[Tuple[Place, Content]]) -> None:
        self.all: List[Kept] = []
        self.text = 0
        self._leaves: Dict[Tuple[str, cpdb.Tree], int] = {}
        self._nodes: Dict[int, int] = {}
        self._standing = {id(content): place for root, tree in standing for place, content in _nodes_of(root, tree)}

    def number(self, content: Content) -> int:
        """The number of a content."""
        if not is_node(content):
            return self._leaf(content)  # type: ignore[arg-type]
        found = self._nodes.get(id(content))
        if found is None:
            found = self._nodes[id(content)] = self._add(self._node(content))
        return found

    def _node(self, content: Content) -> Kept:
        place = self._standing.get(id(content))
        if place is not None:
            return place
        return Branch([(label, self.number(it)) for label, it in sorted(content.children.items())])  # type: ignore[union-attr]

    def _leaf(self, value: cpdb.Tree) -> int:
        key = (type(value).__name__, value)
        if key not in self._leaves:
            self.text += len(value) if isinstance(value, str) else 0
            self._leaves[key] = self._add(Leaf(value))
        return self._leaves[key]

    def _add(self, kept: Kept) -> int:
        self.all.append(kept)
        return len(self.all) - 1


def _nodes_of(place: Place, content: Content) -> Iterator[Tuple[Place, Content]]:
    """The nodes with something below them, at a place and below it."""
    if is_node(content) and size_of(content) > 1:
        yield place, content
        for label, below in content.children.items():  # type: ignore[union-attr]
            yield from _nodes_of(place / label, below)


def undone_on(course: Course) -> List[List[Tuple[Place, Standing]]]:
    """Leads a course to its end, and answers of each step what stood before it at the places where it changed something."""
    return [[(it.place, it.before) for span in course.go(version) for it in span.differences]
            for version in range(1, course.commits.last + 1)]


def versions_of(undone: List[List[Tuple[Place, Standing]]], trees: Trees, whole: Iterable[str]) -> Versions:
    """The versions before the last one, as far back as a page has room. `whole` are the sources that are whole in the page."""
    contents = _Contents(_roots_of(trees, ["T", *whole]))
    steps: List[List[Undone]] = []
    changes = 0
    for number in range(len(undone), 0, -1):
        kept = len(contents.all)
        step = [(place, None if isinstance(before, Nothing) else contents.number(before)) for place, before in undone[number - 1]]
        changes += 1 + len(step)
        if changes + len(contents.all) > MOST_CHANGES or contents.text > MOST_TEXT:
            del contents.all[kept:]
            return Versions(number, steps[::-1], contents.all)
        steps.append(step)
    return Versions(0, steps[::-1], contents.all)


def _roots_of(trees: Trees, names: Iterable[str]) -> Iterator[Tuple[Place, Standing]]:
    for name in names:
        found = trees.find(Place(name))
        if found:
            yield Place(name), found[0]
