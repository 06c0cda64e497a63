"""Statements that bring places of T to what they had in an earlier version, so that as much as can be keeps its past.

Data of then that still stands somewhere is copied from there, so that it keeps its past: from a place of T, or from the place
of a source from which it had come. Which data that is, the program's traces tell, those of now and those of then. What stands
nowhere any more is inserted.
"""
import bisect
import contextlib
import os
import tempfile
from typing import Dict, Iterator, List, NamedTuple, Optional, Sequence, Tuple

from . import storefile
from .calls import Name
from .past import Content, Trees, content_of, is_node, tree_of
from .replies import Refused, Trace
from .scripts import MOST_OPERATIONS, insertions, shown
from .session import Session
from .spelling import Place, Tree, copy_text, delete_text, walk
from .storefile import CommitEntry, operation_text
from .tool import Commits, Failure
from .versions import NOTHING, Difference, Nothing, Standing, at_place, differences, is_same

__all__ = ["Done", "Pasts", "Restoring", "in_transactions", "session_at", "test_statements"]

Labels = Tuple[str, ...]

# How many of the places that have some data of then are looked at.
MOST_ORIGINS = 4


def without_checkpoints(data: bytes) -> bytes:
    """The bytes of a file with the gates of its two slots closed, so that it stands for its entries alone."""
    return data[:64] + b"\x00" + data[65:128] + b"\x00" + data[129:]


@contextlib.contextmanager
def session_at(copy: Name, commits: Commits, version: int) -> Iterator[Session]:
    """A session on a store as it was in a version: on a file with the commits up to it, to which the operations of a commit
    that goes beyond are committed as far as the version goes."""
    with open(copy, "rb") as file:
        data = file.read()
    frames, reached, rest = storefile.frames(data).frames, 0, None
    end, number = frames[0].end, 0
    for frame in frames[1:]:
        if frame.tag != "E":
            continue
        if frame.body[0] != 2:
            commit = commits.all[number]
            if commit.last > version:
                rest = storefile.entry(frame.body) if commit.first <= version else None
                break
            number, reached = number + 1, commit.last
        end = frame.end
    with tempfile.TemporaryDirectory(prefix="cpdb-") as folder:
        then = os.path.join(folder, "store")
        with open(then, "wb") as file:
            file.write(without_checkpoints(data[:end]) + b"\x00")
        with Session.run(then) as session:
            if isinstance(rest, CommitEntry):
                for lines in session.ask_all([*map(operation_text, rest.operations[: version - reached]), "commit"]):
                    if lines and lines[0].startswith("refused"):
                        raise Refused(lines[0])
            yield session


class Pasts:
    """What the program's traces tell of the data of a version: which places of T have it now, and which of a source.

    Two places have the same data where their traces end alike: in the insertion of it, at its place of the start tree, or at
    the same place of a source.
    """

    def __init__(self, session: Session, version: int) -> None:
        """Asks a session on the store as it is for the traces of all places of T."""
        self._ends: Dict[Labels, _End] = {}
        self._with_end: Dict[_End, List[Place]] = {}
        self._through: Dict[Labels, List[Place]] = {}
        self._ends_then: Dict[Labels, _End] = {}
        places = [it for it, _ in walk(Place("T"), session.show())]
        for place, trace in zip(places, session.traces(places)):
            end = _end_of(trace)
            self._ends[place.labels] = end
            self._with_end.setdefault(end, []).append(place)
            for segment in trace.segments:
                if segment.low <= version <= segment.high:
                    self._through.setdefault(segment.place.labels, []).append(place)

    def ask_then(self, session: Session, places: Sequence[Place]) -> None:
        """Asks a session on the store as it was for the traces of places."""
        for place, trace in zip(places, session.traces(places)):
            self._ends_then[place.labels] = _end_of(trace)

    def origins(self, place: Place) -> List[Place]:
        """The places that have the data of a place of then, the best first.

        Those of T to which it has come from there have all of its past. Then comes the place of the source from which it had
        come, or else those of T that have it by other copies.
        """
        end = self._ends_then[place.labels]
        found = self._through.get(place.labels, [])[:MOST_ORIGINS]
        others = [end.place] if end.kind == "copy" else self._with_end.get(end, [])[:MOST_ORIGINS]
        return found + [it for it in others if it not in found]

    def has_data_of(self, origin: Place, place: Place) -> bool:
        """Whether a place of T or of a source has the data that stood at a place then."""
        end = self._ends_then[place.labels]
        return self._ends.get(origin.labels) == end if origin.name == "T" else end == _End("copy", origin, 0)


class _End(NamedTuple):
    """How the past of data begins: at a place of a source, or of T with the first version at which it stood there."""

    kind: str
    place: Place
    low: int


def _end_of(trace: Trace) -> _End:
    if trace.end.place is not None:
        return _End("copy", trace.end.place, 0)
    return _End(trace.end.kind, trace.segments[-1].place, trace.segments[-1].low)


class Done(NamedTuple):
    """What is done to a place: `what` is "copied", "inserted" or "deleted"."""

    what: str
    place: Place
    origin: Optional[Place] = None


class _Fit(NamedTuple):
    """A place with the data of then: how many places come along with a copy, and what is to be mended after it."""

    origin: Place
    kept: int
    mended: List[Difference]


class _Step(NamedTuple):
    """A statement to write: a copy where `origin` is there, or else the text of an insertion or a deletion."""

    text: str
    place: Place
    origin: Optional[Place]
    is_first: bool


class Restoring:
    """The statements that bring places of T to what they had then."""

    def __init__(self, now: Trees, pasts: Optional[Pasts]) -> None:
        """Begins with the trees of now. Without pasts nothing is copied."""
        self._now, self._pasts = now, pasts
        self._steps: List[_Step] = []
        self._deletions: List[str] = []
        self._wishes: List[Labels] = []
        self.done: List[Done] = []

    def restore(self, wishes: Sequence[Difference]) -> List[str]:
        """The statements, with their ends, for differences of which `before` stands at the place now, and `after` is wanted.

        None of the places lies within another one. There is a `commit;` wherever a transaction holds no more.
        """
        self._wishes = sorted(it.place.labels for it in wishes if it.after is not NOTHING)
        for wish in wishes:
            if wish.after is NOTHING:
                self._deletions.append(self._deletion(wish.place))
            else:
                self._bring(wish, True)
        return in_transactions(self._written())

    def _deletion(self, place: Place) -> str:
        self.done.append(Done("deleted", place))
        return f"{_deletion(place)};"

    def _bring(self, wish: Difference, is_first: bool) -> None:
        """Brings a place to what is wanted there, where what is wanted is something."""
        fit = self._fit(wish.place, wish.after)
        if fit is None:
            self._insert(wish)
            return
        if wish.before is NOTHING:
            self._step(*insertions(*_above(wish.place), {}))
        self._copy(wish.place, fit, is_first)

    def _copy(self, place: Place, fit: _Fit, is_first: bool) -> None:
        self.done.append(Done("copied", place, fit.origin))
        self._steps.append(_Step(f"{copy_text(fit.origin, place)};", place, fit.origin, is_first))
        for difference in fit.mended:
            if difference.after is NOTHING:
                self._step(self._deletion(difference.place))
            else:
                self._bring(difference, False)

    def _insert(self, wish: Difference) -> None:
        """Inserts what is wanted at a place, and copies below it what still stands somewhere."""
        if not wish.place.labels:
            raise Failure("T itself, which is a leaf or has been one, can't be brought back by an insertion")
        if wish.before is not NOTHING:
            self._step(f"{_deletion(wish.place)};")
        copies: List[Tuple[Place, _Fit]] = []
        self.done.append(Done("inserted", wish.place))
        self._step(*insertions(*_above(wish.place), self._skeleton(wish.place, wish.after, copies)))
        for place, fit in copies:
            self._copy(place, fit, False)

    def _skeleton(self, place: Place, want: Standing, copies: List[Tuple[Place, _Fit]]) -> Tree:
        """What is inserted at a place: the tree that is wanted, with an empty node where a copy comes."""
        assert not isinstance(want, Nothing)
        if not is_node(want):
            return tree_of(want)
        node: Dict[str, Tree] = {}
        for label, it in sorted(want.children.items()):  # type: ignore[union-attr]
            fit = self._fit(place / label, it)
            if fit:
                copies.append((place / label, fit))
            node[label] = {} if fit else self._skeleton(place / label, it, copies)
        return node

    def _step(self, *texts: str) -> None:
        self._steps += [_Step(it, Place("T"), None, False) for it in texts]

    # Where the data of then stands

    def _fit(self, place: Place, want: Standing) -> Optional[_Fit]:
        """The place from which the data of then is best copied, or None where it isn't to be."""
        best = None
        for origin in self._pasts.origins(place) if self._pasts else ():
            # The root of T has whatever is set aside below it, too; what is copied from it comes piece by piece.
            if origin.name == "T" and (() in self._wishes or not origin.labels):
                continue
            found = _Fit(origin, *self._compared(place, want, origin, at_place(self._now, origin)))
            if len(found.mended) <= found.kept and (best is None or _worth(found) > _worth(best)):
                best = found
        return best

    def _compared(self, place: Place, want: Standing, origin: Place, content: Standing) -> Tuple[int, List[Difference]]:
        """How many places come along with a copy from an origin of a place's data, and what is to be mended after it."""
        kept, mended = 1, []
        assert self._pasts and not isinstance(want, Nothing)
        if not is_node(want):
            return kept, mended
        assert not isinstance(content, Nothing)
        children: Dict[str, Content] = content.children  # type: ignore[union-attr]
        wanted: Dict[str, Content] = want.children  # type: ignore[union-attr]
        for label, it in sorted(wanted.items()):
            if label in children and self._pasts.has_data_of(origin / label, place / label):
                more, others = self._compared(place / label, it, origin / label, children[label])
                kept += more
                mended += others
            else:
                mended.append(Difference(place / label, children.get(label, NOTHING), it))
        mended += [Difference(place / label, it, NOTHING) for label, it in sorted(children.items()) if label not in wanted]
        return kept, mended

    # How it is written

    def _written(self) -> List[str]:
        """The statements in an order in which each copy finds its origin as it stands now."""
        stashed: Dict[Place, Place] = {}
        for step in self._steps:
            if step.origin and step.origin.name == "T" and self._is_overwritten(step):
                stashed.setdefault(step.origin, Place("T"))
        if not stashed:
            return [it.text for it in self._steps] + self._deletions
        stash = Place("T") / self._free_label()
        for number, origin in enumerate(stashed):
            stashed[origin] = stash / str(number)
        head = [*insertions(*_above(stash), {it.last: {} for it in stashed.values()})]
        head += [f"{copy_text(origin, to)};" for origin, to in stashed.items()]
        body = [f"{copy_text(stashed[it.origin], it.place)};" if it.origin in stashed else it.text for it in self._steps]
        return head + body + [f"{_deletion(stash)};"] + self._deletions

    def _is_overwritten(self, step: _Step) -> bool:
        """Whether the origin of a copy may be changed before it, by a statement that writes within it or above it."""
        assert step.origin
        labels = step.origin.labels
        # The first copy to a place takes what stood there and below before; an empty node may stand there by then.
        own = [step.place.labels] if step.is_first and not step.place.is_within(step.origin) else []
        for length in range(len(labels) + 1):
            at = bisect.bisect_left(self._wishes, labels[:length])
            if at < len(self._wishes) and self._wishes[at] == labels[:length] and labels[:length] not in own:
                return True
        at = bisect.bisect_right(self._wishes, labels)
        within = [it for it in self._wishes[at: at + 2] if it[: len(labels)] == labels]
        return any(it not in own for it in within)

    def _free_label(self) -> str:
        taken = set(self._now.labels(Place("T"))) | {it[0] for it in self._wishes if it}
        number = 1
        while f"reverting{number}" in taken:
            number += 1
        return f"reverting{number}"


def in_transactions(statements: Sequence[str]) -> List[str]:
    """Statements with a `commit;` wherever a transaction holds no more."""
    if len(statements) <= MOST_OPERATIONS:
        return list(statements)
    found: List[str] = []
    for at in range(0, len(statements), MOST_OPERATIONS):
        found += [*statements[at: at + MOST_OPERATIONS], "commit;"]
    return found[:-1]


def test_statements(session: Session, now: Content, statements: Sequence[str], wishes: Sequence[Difference]) -> None:
    """Commits statements in a session on a private copy; fails where one is refused or something else than was wished comes."""
    asked = [*statements, "commit;"] if statements else []
    for statement, lines in zip(asked, session.ask_all(asked)):
        if any(it.startswith("refused") for it in lines):
            raise Failure(f"{lines[0]}, by the statement {shown(statement, 100)}")
    wanted = {it.place: it.after for it in wishes}
    for found in differences(Place("T"), now, content_of(session.show())):
        if not (found.place in wanted and is_same(found.after, wanted.pop(found.place))):
            raise Failure(f"the statements lead to something else at {found.place}")
    if wanted:
        raise Failure(f"the statements don't change {next(iter(wanted))}")


def _worth(fit: _Fit) -> int:
    return fit.kept - len(fit.mended)


def _above(place: Place) -> Tuple[Place, str]:
    assert place.parent is not None
    return place.parent, place.last


def _deletion(place: Place) -> str:
    return delete_text(*_above(place))
