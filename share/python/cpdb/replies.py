"""Replies of the program, as values. The lines are those that docs/STATEMENTS.md gives."""
import re
from typing import Dict, List, NamedTuple, Optional, Sequence, Tuple

from .spelling import Place, SpellingError, Tree, read_label, read_place_at, read_written_place, read_written_tree

__all__ = ["Archive", "Commit", "Committed", "End", "Ended", "Origin", "Record", "Refused", "Segment", "Stats", "Trace",
           "read_archive", "read_commit", "read_committed", "read_origin", "read_record", "read_records", "read_show", "read_src",
           "read_stats", "read_tids", "read_trace", "read_uses"]


class Refused(Exception):
    """The program refused a statement, or what a call was to do. `line` is what it wrote."""

    def __init__(self, line: str) -> None:
        super().__init__(line)
        self.line = line


class Ended(Exception):
    """A call of the program ended before it was done. `line` is the last line that it wrote, if any, `status` how it ended."""

    def __init__(self, line: str, status: int) -> None:
        super().__init__(line or f"cpdb ended with status {status}")
        self.line, self.status = line, status


class Stats(NamedTuple):
    """The reply of `stats`."""

    kind: str
    tid: int
    transactions: int
    records: int
    nodes: int
    sources: int


class End(NamedTuple):
    """How a past begins: `kind` is "new" (inserted), "start" (there from the start) or "copy" (from `place`).

    In the end of a trace `place` lies in a source. In an answer of `from` it lies in a source or in T, and `tid` is the step.
    """

    kind: str
    place: Optional[Place] = None
    tid: Optional[int] = None


Origin = End


class Segment(NamedTuple):
    """Where data stood in the versions `low` to `high`."""

    place: Place
    low: int
    high: int


class Trace(NamedTuple):
    """The reply of `trace`: the places at which the data stood, newest first, and where it came from before them."""

    segments: List[Segment]
    end: End


class Record(NamedTuple):
    """A record: what step `tid` has done to `place`. `op` is "I", "C", "D" or "K"; `source` is there for "C" alone."""

    tid: int
    op: str
    place: Place
    source: Optional[Place] = None


class Committed(NamedTuple):
    """The Tids of a commit, from the first to the last."""

    first: int
    last: int


class Commit(NamedTuple):
    """A line of `log`: a commit with its Tids, its curator, its moment (seconds since 1970 in UTC) and its operations."""

    first: int
    last: int
    curator: str
    moment: int
    operations: int


class Archive(NamedTuple):
    """The reply of `archive`: how many versions a store has, the start among them, and how many ranges these have in all."""

    versions: int
    ranges: int


_STATS = re.compile(r"stats: kind (n|t|h|ht), tid (\d+), transactions (\d+), records (\d+), nodes (\d+), sources (\d+)")
_ARCHIVE = re.compile(r"archive: versions (\d+), ranges (\d+)")
_COMMITTED = re.compile(r"committed (\d+)(?:\.\.(\d+))?")
_COMMIT = re.compile(r"commit (\d+)(?:\.\.(\d+))? by (.*) at (\d+), operations (\d+)", re.DOTALL)
_AT = re.compile(r" at (\d+)$")
_SEGMENT = re.compile(r'("(?:[^"\\]|\\.)*"|[^\x00-\x20";{}:,]+)@(\d+)\.\.(\d+) < ', re.DOTALL)


def _unread(line: str) -> SpellingError:
    return SpellingError(f"this reply of cpdb can't be read: {line[:200]}")


def answer_of(line: str, word: str) -> str:
    """What stands behind `WORD PLACE: ` in the reply of a query; Refused where it was refused."""
    if line.startswith("refused"):
        raise Refused(line)
    if not line.startswith(f"{word} "):
        raise _unread(line)
    _, end = read_place_at(line, len(word) + 1)
    if line[end: end + 2] != ": ":
        raise _unread(line)
    return line[end + 2:]


def read_show(line: str) -> Tree:
    """The tree of a reply of `show`."""
    return read_written_tree(answer_of(line, "show"))


def read_src(line: str) -> Optional[int]:
    """The Tid of a reply of `src`, or None."""
    answer = answer_of(line, "src")
    return None if answer == "none" else int(answer)


def read_tids(line: str) -> List[int]:
    """The Tids of a reply of `hist` or `mod`."""
    answer = answer_of(line, line.split(" ", 1)[0])
    return [] if answer == "none" else [int(it) for it in answer.split(" ")]


def read_trace(line: str) -> Trace:
    """The reply of `trace`.

    An end that is written `new` or `start` counts as that. Where a source with such a name is loaded, the root of that
    source is written so too: `Session.trace` tells the two apart.
    """
    answer = answer_of(line, "trace")
    segments: List[Segment] = []
    offset = 0
    while True:
        found = _SEGMENT.match(answer, offset)
        if not found:
            break
        place, low, high = found.groups()
        segments.append(Segment(read_written_place(place), int(low), int(high)))
        offset = found.end()
    text, end = read_place_at(answer, offset)
    if end < len(answer):
        raise _unread(line)
    return Trace(segments, _end(text))


def _end(text: str) -> End:
    return End(text) if text in ("new", "start") else End("copy", read_written_place(text))


def read_origin(line: str) -> Origin:
    """The reply of `from`. What `read_trace` says of sources that are named `new` or `start` holds here too."""
    answer = answer_of(line, "from")
    if answer == "start":
        return End("start")
    found = _AT.search(answer)
    if not found:
        raise _unread(line)
    return _end(answer[: found.start()])._replace(tid=int(found.group(1)))


def read_uses(line: str) -> List[Place]:
    """The places of a reply of `uses`, in its order, which is that of places."""
    answer = answer_of(line, "uses")
    if answer == "none":
        return []
    places: List[Place] = []
    offset = 0
    while True:
        text, offset = read_place_at(answer, offset)
        places.append(read_written_place(text))
        if offset == len(answer):
            return places
        if answer[offset] != " ":
            raise _unread(line)
        offset += 1


def read_record(line: str) -> Record:
    """One record, as `records` writes it."""
    tid, op, rest = line.split(" ", 2)
    place, end = read_place_at(rest, 0)
    source = read_written_place(rest[end + 1:]) if op == "C" else None
    if (op not in ("I", "C", "D", "K")) or (op != "C" and end != len(rest)):
        raise _unread(line)
    return Record(int(tid), op, read_written_place(place), source)


def read_records(lines: Sequence[str]) -> List[Record]:
    """The reply of `records`, in all its lines."""
    if lines and lines[0].startswith("refused"):
        raise Refused(lines[0])
    if not lines or lines[-1] != f"records: {len(lines) - 1}":
        raise _unread(lines[-1] if lines else "")
    return [read_record(line) for line in lines[:-1]]


def read_stats(line: str) -> Stats:
    """The reply of `stats`."""
    found = _STATS.fullmatch(line)
    if not found:
        raise _unread(line)
    kind, *numbers = found.groups()
    return Stats(kind, *map(int, numbers))


def read_archive(line: str) -> Archive:
    """The reply of `archive`."""
    found = _ARCHIVE.fullmatch(line)
    if not found:
        raise _unread(line)
    return Archive(*map(int, found.groups()))


def read_committed(line: str) -> Committed:
    """The reply of `commit`; Refused where it was refused."""
    if line.startswith("refused"):
        raise Refused(line)
    found = _COMMITTED.fullmatch(line)
    if not found:
        raise _unread(line)
    return Committed(int(found.group(1)), int(found.group(2) or found.group(1)))


def read_commit(line: str) -> Commit:
    """A commit's line of `log`."""
    found = _COMMIT.fullmatch(line)
    if not found:
        raise _unread(line)
    first, last, curator, moment, operations = found.groups()
    return Commit(int(first), int(last or first), read_label(curator), int(moment), int(operations))


def number_behind(line: str, word: str) -> int:
    """The number at the end of a line that begins with a word: `aborted N`, `loaded NAME N`, `created KIND N`."""
    if line.startswith("refused"):
        raise Refused(line)
    last = line.rsplit(" ", 1)[-1]
    if not line.startswith(f"{word} ") or not last.isdigit():
        raise _unread(line)
    return int(last)
