"""What the tools of bin/ have in common: how they end, how they write, and how they tell dates and contents.

Their exit statuses are those of the program where they mean the same: 0 done, 1 done with a no for an answer (each tool says
which), 2 wrong words, 3 a file that can't be read or written, 4 an output that can't be written, 5 and 6 a store that can't
be read or isn't one. Other ends of the program are passed on.
"""
import bisect
import contextlib
import datetime
import gc
import io
import os
import re
import sys
from typing import Callable, Iterator, List, NamedTuple, NoReturn, Optional, Tuple

from .calls import Name, copy_of, log
from .past import Content, content_of, size_of, tree_of
from .replies import Commit, Ended, Refused, read_show
from .session import Session
from .spelling import Place, SpellingError, Tree, quoted, tree_text, walk
from .storefile import Load, entries_of

__all__ = ["Commits", "Failure", "Reading", "counted", "date_of", "file_told", "moment_of", "opening", "place_in_t", "place_of",
           "reading", "run", "source_in", "sources_of", "steps_text", "taken_of", "told", "tree_told"]

# How many characters of a content stand in a line.
SHORT = 60

_DATE = re.compile(r"(\d{4})(?:-(\d\d)(?:-(\d\d))?)?")
_TIME = re.compile(r"\d{4}-\d\d-\d\d[T ]\d\d:\d\d(?::\d\d)?(Z|[+-]\d\d:\d\d)?")


class Failure(Exception):
    """What a tool can't do, and the exit status with which it ends."""

    def __init__(self, cause: str, status: int = 1) -> None:
        super().__init__(cause)
        self.status = status


def run(name: str, tool: Callable[[List[str]], int]) -> NoReturn:
    """Runs `cpdb NAME` with the words of this process, and ends it with the tool's status."""
    for stream in (sys.stdout, sys.stderr):
        if isinstance(stream, io.TextIOWrapper):
            stream.reconfigure(encoding="utf-8", errors="surrogateescape", newline="\n")
    # A large tree lives until the tool ends: it isn't to be searched for unused cycles at every seven hundred objects.
    gc.set_threshold(200_000)
    try:
        status = tool(sys.argv[1:])
        sys.stdout.flush()
    except KeyboardInterrupt:
        status = 130
    except (Failure, Ended, Refused, SpellingError, OSError) as error:
        status = _status_of(error)
        if _is_of_output(error):
            # So that the end of Python, which writes what is left, says nothing more.
            os.dup2(os.open(os.devnull, os.O_WRONLY), sys.stdout.fileno())
        if status:
            print(f"cpdb {name}: {_text_of(error)}", file=sys.stderr)
    sys.exit(status)


def _text_of(error: Exception) -> str:
    if isinstance(error, OSError):
        return f"{'writing failed' if error.filename is None else error.filename}: {error.strerror}"
    if isinstance(error, Refused) and error.line.startswith("refused: "):
        return error.line[len("refused: "):]
    return str(error)


def _is_of_output(error: Exception) -> bool:
    """Whether writing standard output failed: an error of a file has the file's name."""
    return isinstance(error, OSError) and error.filename is None


def _status_of(error: Exception) -> int:
    if isinstance(error, (Failure, Ended)):
        return error.status
    if isinstance(error, SpellingError):
        return 2
    if isinstance(error, BrokenPipeError):
        return 0
    if _is_of_output(error):
        return 4
    return 3 if isinstance(error, OSError) else 1


class Reading(NamedTuple):
    """A store that is read: a private copy of its file, and a session on it."""

    copy: str
    session: Session


@contextlib.contextmanager
def reading(store: Name) -> Iterator[Reading]:
    """A private copy of a store with a session on it, so that the store itself is neither changed nor kept from others."""
    with copy_of(store) as copy:
        try:
            session = Session.run(copy)
        except Ended as error:
            raise _refusal_of(store, error) from None
        with session:
            yield Reading(copy, session)


@contextlib.contextmanager
def opening(store: Name) -> "Iterator[Tuple[str, Commits]]":
    """A private copy of a store with its commits."""
    with copy_of(store) as copy:
        try:
            commits = Commits(copy)
        except Ended as error:
            raise _refusal_of(store, error) from None
        yield copy, commits


def _refusal_of(store: Name, error: Ended) -> Failure:
    """Why a store doesn't open; where it begins as one, that a part of it may still open."""
    broken = re.fullmatch(r"error: not a store at [1-9]\d*", error.line)
    hint = "; `cpdb rescue` copies what still opens" if broken else ""
    return Failure(f"{os.fspath(store)}: {error}{hint}", error.status)


def place_of(text: str) -> Place:
    """The place that a word spells; a name that isn't T alone is one too."""
    try:
        return Place.read(text)
    except SpellingError as error:
        raise Failure(f"{error}{_hint_for(text)}", 2) from None


def _hint_for(text: str) -> str:
    """How a text that spells no place has to be written, where it is the raw text of one."""
    try:
        place = Place.read(quoted(text))
    except SpellingError:
        return ""
    return f"; in quotation marks, {place}, it is one"


def place_in_t(text: str) -> Place:
    """The place of T that a word spells."""
    place = place_of(text)
    if place.name != "T":
        raise Failure(f"{place} isn't a place of T; sources never change, and `cpdb sources` tells when they were loaded", 2)
    return place


def source_in(session: Session, name: str) -> Tree:
    """The tree of a source."""
    shown = session.send(f"show {place_of(name)}")[0]
    if shown.startswith("refused") or name == "T" or "/" in name:
        raise Failure(f"no source {name}")
    return read_show(shown)


def taken_of(session: Session, source: str, below: Place = Place("T")) -> Iterator[Tuple[Place, Place]]:
    """The places at and below a place of T whose past ends in a source, each with its place there, in the order of places."""
    places = [it for it, _ in walk(below, session.show(below))]
    for place, trace in zip(places, session.traces(places)):
        if trace.end.place and trace.end.place.name == source:
            yield place, trace.end.place


def sources_of(copy: str) -> List[str]:
    """The names of a store's sources, in the order in which they were loaded."""
    return [it.name for it in entries_of(copy) if isinstance(it, Load)]


class Commits:
    """The commits of a store, found by a step."""

    def __init__(self, copy: str) -> None:
        self.all = log(copy)
        self._firsts = [it.first for it in self.all]

    @property
    def last(self) -> int:
        """The last step, 0 where there is none: the last version."""
        return self.all[-1].last if self.all else 0

    def of(self, tid: int) -> Commit:
        """The commit of a step."""
        return self.all[bisect.bisect_right(self._firsts, tid) - 1]


def steps_text(commit: Commit) -> str:
    """The Tids of a commit, as replies write them."""
    return f"{commit.first}" if commit.first == commit.last else f"{commit.first}..{commit.last}"


def date_of(moment: int) -> str:
    """A moment as a date and time in UTC, as ISO 8601 writes it; the seconds since 1970 where no year of four digits has it."""
    try:
        return f"{datetime.datetime.fromtimestamp(moment, datetime.timezone.utc):%Y-%m-%dT%H:%M:%SZ}"
    except (OverflowError, ValueError, OSError):
        return f"{moment} s"


def moment_of(date: str, is_end: bool = False) -> int:
    """The first second of a date, or its last where it is the end of a span; a date without a zone is one in UTC.

    It is a year, a month, a day, or a day with its time to the minute or the second: `2026`, `2026-12`, `2026-12-01`,
    `2026-12-01T08:30`, `2026-12-01T08:30:15Z`, `2026-12-01T09:30:15+01:00`.
    """
    try:
        first, after = _span_of(date)
    except ValueError:
        raise Failure(f"{date} is no date in ISO 8601, as 2026-12-01 or 2026-12-01T08:30:00Z is", 2) from None
    return int(after.timestamp()) - 1 if is_end else int(first.timestamp())


def _span_of(date: str) -> Tuple[datetime.datetime, datetime.datetime]:
    """The first moment of a date, and the first after it."""
    if _TIME.fullmatch(date):
        first = datetime.datetime.fromisoformat(date.replace("Z", "+00:00"))
        first = first if first.tzinfo else first.replace(tzinfo=datetime.timezone.utc)
        has_seconds = len(re.sub(r"(Z|[+-]\d\d:\d\d)$", "", date)) > 16
        return first, first + datetime.timedelta(seconds=1 if has_seconds else 60)
    found = _DATE.fullmatch(date)
    if not found:
        raise ValueError(date)
    year, month, day = (int(it) if it else None for it in found.groups())
    first = datetime.datetime(year or 0, month or 1, day or 1, tzinfo=datetime.timezone.utc)
    if day:
        return first, first + datetime.timedelta(days=1)
    months = 12 if month is None else 1
    return first, datetime.datetime(first.year + (first.month - 1 + months) // 12, (first.month - 1 + months) % 12 + 1, 1,
                                    tzinfo=datetime.timezone.utc)


def tree_told(tree: Tree, longest: Optional[int] = SHORT) -> str:
    """As `told`, of a tree."""
    return told(content_of(tree), longest)


def told(content: Content, longest: Optional[int] = SHORT) -> str:
    """What stands at a place: its spelling where that is short or any length will do, else how it begins or how big it is."""
    size = size_of(content)
    if longest is None or size <= longest:
        text = tree_text(tree_of(content))
        if longest is None or len(text) <= longest:
            return text
        if size == 1:
            return f"{text[:longest]}.."
    return f"{{..}} with {counted(size - 1, 'place')}"


def file_told(name: Name) -> str:
    """The name of a file in a line; as Python writes it where it has what isn't printed."""
    text = os.fspath(name)
    return text if text.isprintable() else repr(text)


def counted(number: int, word: str) -> str:
    """A number with its noun."""
    return f"{number} {word}" if number == 1 else f"{number} {word}s"

