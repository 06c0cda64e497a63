"""A session: an open call of `cpdb run` or `cpdb scratch`, to which statements are sent and which answers them.

How replies are matched to statements. Each statement but an operation has a reply that can be told from its first word:
one line, or for `records` those up to the line that counts them. An operation (`ins`, `del`, `copy`) has a line only where
it is refused. So `src T` is sent after each operation: its answer, which no refusal looks like, says that the operation has
been read. What was sent waits in a queue, and each line belongs to the first that is not answered yet.

In a session of `share` each statement begins with `@` and the name of who speaks, and so does each line of its reply, of
which a caller sees neither.

Nothing can block for ever: while an answer is waited for, statements are written only as far as the program takes them,
and lines are read as soon as they come, whichever of the two is possible.
"""
import collections
import itertools
import os
import re
import select
import subprocess
from types import TracebackType
from typing import Deque, Iterable, Iterator, List, Optional, Set, Type, Union

from . import replies
from .calls import Name, program
from .replies import Committed, Ended, Origin, Record, Refused, Stats, Trace
from .spelling import Place, SpellingError, Tree, copy_text, delete_text, insert_text, is_name, label_text, quoted

__all__ = ["Session"]

Where = Union[Place, str]

OPERATIONS = ("ins", "del", "copy")
_BLANK = " \t\n\r"
_STATEMENT = re.compile(r'(?:[^";]+|"(?:[^"\\]|\\.)*")*', re.DOTALL)
_FIRST_TOKEN = re.compile(r'[ \t\n\r]*([^\x00-\x20";{}:,]+|[^ \t\n\r])', re.DOTALL)
_MARKER, _MARKER_ANSWER = "src T;", "src T: "
# How many bytes, and how many statements, of a bulk are under way at once.
_AHEAD, _MOST_AHEAD = 65_536, 4_096


class _Reply:
    """The lines that answer a statement, as they come."""

    __slots__ = ("lines", "word", "front", "is_operation", "is_done")

    def __init__(self, word: str, front: str) -> None:
        self.lines: List[str] = []
        self.word, self.front = word, front
        self.is_operation, self.is_done = word in OPERATIONS, not word

    def take(self, line: str) -> None:
        """Takes the next line. One without the front is of nobody: a statement that is too long."""
        if line.startswith(self.front):
            line = line[len(self.front):]
        if self.is_operation and line.startswith(_MARKER_ANSWER):
            self.is_done = True
            return
        self.lines.append(line)
        if self.word == "records":
            self.is_done = line.startswith(("records: ", "refused"))
        else:
            self.is_done = not self.is_operation


def statement_of(text: str) -> str:
    """The text of one statement without its end; SpellingError where it is more than one, or a quotation mark isn't closed."""
    text = text.rstrip(_BLANK)
    if '"' not in text and ";" not in text:
        return text
    found = _STATEMENT.match(text)
    end = found.end() if found else 0
    if end == len(text) or (text[end] == ";" and end == len(text) - 1):
        return text[:end]
    if text[end] == ";":
        raise SpellingError(f"a statement ends at {end}, and more comes after it")
    raise SpellingError(f"the quotation mark at {end} isn't closed")


def _checked_name(name: str) -> str:
    if not is_name(name):
        raise SpellingError(f"{name!r} is no name: a letter and then at most 31 letters, digits or _ are")
    return name


def first_word(text: str) -> str:
    """The first token of a statement, "" where it is blank."""
    found = _FIRST_TOKEN.match(text)
    return found.group(1) if found else ""


class Session:
    """An open call that runs statements. Use it as `with Session.run(store, curator) as s: ..`.

    Places are given as `Place` or as their spelling. Ended is raised where the call ends before it has answered, Refused
    where a statement is refused.
    """

    def __init__(self, words: List[str], speaker: Optional[str] = None) -> None:
        """Starts a call with these words after `cpdb`, and waits until it answers."""
        self._speaker = speaker
        self._call = subprocess.Popen([program(), *words], stdin=subprocess.PIPE, stdout=subprocess.PIPE,
                                      start_new_session=True)
        assert self._call.stdin and self._call.stdout
        self._input, self._output = self._call.stdin.fileno(), self._call.stdout.fileno()
        os.set_blocking(self._input, False)
        self._unsent = bytearray()
        self._unread: List[bytes] = []
        self._waiting: Deque[_Reply] = collections.deque()
        self._last_line = ""
        self._takes_input = True
        self._odd_sources: Optional[Set[str]] = None
        self._open()

    @classmethod
    def run(cls, store: Name, curator: Optional[str] = None) -> "Session":
        """A session on a store, `cpdb run STORE [CURATOR]`."""
        return cls(["run", os.fspath(store), *([] if curator is None else [curator])])

    @classmethod
    def share(cls, store: Name, name: str) -> "Session":
        """A session on a store as one of several curators, `cpdb share STORE`: `speaker` is who speaks, first the curator `name`."""
        return cls(["share", os.fspath(store)], _checked_name(name))

    @classmethod
    def scratch(cls, kind: str, start: Optional[Name] = None) -> "Session":
        """A session in memory, `cpdb scratch KIND [JSON]`."""
        return cls(["scratch", kind, *([] if start is None else [os.fspath(start)])])

    @property
    def speaker(self) -> Optional[str]:
        """Whose the next statements are, in a session of `share`; another name may be set. Else None."""
        return self._speaker

    @speaker.setter
    def speaker(self, name: str) -> None:
        if self._speaker is None:
            raise ValueError("this session has one curator")
        self._speaker = _checked_name(name)

    def __enter__(self) -> "Session":
        return self

    def __exit__(self, kind: Optional[Type[BaseException]], error: Optional[BaseException],
                 trace: Optional[TracebackType]) -> None:
        if kind is None:
            self.close()
        else:
            self._leave()

    def close(self) -> None:
        """Ends the call; an open transaction is given up. Ended where its status is neither 0 nor 1."""
        if self._call.returncode is None:
            status = self._leave()
            if status not in (0, 1):
                raise Ended(self._last_line, status)

    # Queries

    def show(self, place: Where = Place("T")) -> Tree:
        """The subtree at a place: of the working tree while a transaction is open."""
        return replies.read_show(self._ask("show", place))

    def src(self, place: Where) -> Optional[int]:
        """The step that inserted the data of a place, or None."""
        return replies.read_src(self._ask("src", place))

    def hist(self, place: Where) -> List[int]:
        """The steps that copied the data of a place."""
        return replies.read_tids(self._ask("hist", place))

    def mod(self, place: Where) -> List[int]:
        """The steps that had a part in what stands at a place and below it."""
        return replies.read_tids(self._ask("mod", place))

    def trace(self, place: Where) -> Trace:
        """Where the data of a place stood, newest first, and how its past begins."""
        return self._trace_of(place, self._ask("trace", place))

    def traces(self, places: Iterable[Where]) -> Iterator[Trace]:
        """The traces of many places, in their order, asked in bulk."""
        asked, told = itertools.tee(places)
        for place, lines in zip(told, self.ask_all(f"trace {it}" for it in asked)):
            yield self._trace_of(place, lines[0])

    def origin(self, place: Where) -> Origin:
        """Where the data of a place came from at last, the query `from`."""
        origin = replies.read_origin(self._ask("from", place))
        return self._told_apart(origin, place, origin.tid or 0)

    def records(self, tid: Optional[int] = None) -> List[Record]:
        """The records of all steps, or of one."""
        return replies.read_records(self.send("records" if tid is None else f"records {tid}"))

    def stats(self) -> Stats:
        """The kind and the sizes of the committed state."""
        return replies.read_stats(self.send("stats")[0])

    # What changes the database

    def load_json(self, name: str, file: Name) -> int:
        """Loads a source from a JSON file, and answers how many places it has."""
        return self._load(name, "json", file, "")

    def load_csv(self, name: str, file: Name, by: Optional[str] = None) -> int:
        """Loads a source from a CSV file, rows named by the column with the header `by`, or else numbered."""
        return self._load(name, "csv", file, "" if by is None else f" by {label_text(by)}")

    def insert(self, place: Where, label: str, tree: Tree) -> None:
        """Adds a tree at a label below a place."""
        self._operate(insert_text(place, label, tree))

    def delete(self, place: Where, label: str) -> None:
        """Removes what stands at a label below a place."""
        self._operate(delete_text(place, label))

    def copy(self, source: Where, target: Where) -> None:
        """Replaces what stands at the target by a copy of what stands at the source."""
        self._operate(copy_text(source, target))

    def commit(self) -> Committed:
        """Commits the open transaction, and answers its Tids."""
        return replies.read_committed(self.send("commit")[0])

    def abort(self) -> int:
        """Gives the open transaction up, and answers how many operations that were."""
        return replies.number_behind(self.send("abort")[0], "aborted")

    # Statements as they stand

    def send(self, statement: str) -> List[str]:
        """Sends one statement as it stands, with or without its `;`, and answers the lines that it gets, refusals too."""
        reply = self._queue(statement)
        self._wait_for(reply)
        return reply.lines

    def ask_all(self, statements: Iterable[str]) -> Iterator[List[str]]:
        """Sends many statements without a wait for each, and yields for each in order the lines that it gets.

        Other calls of the session may come between: they are answered after the statements that were sent before them.
        """
        ahead: Deque[_Reply] = collections.deque()
        for statement in statements:
            ahead.append(self._queue(statement))
            while ahead and (ahead[0].is_done or len(self._unsent) > _AHEAD or len(ahead) > _MOST_AHEAD):
                self._wait_for(ahead[0])
                yield ahead.popleft().lines
        for reply in ahead:
            self._wait_for(reply)
            yield reply.lines

    # How it is done

    def _ask(self, word: str, place: Where) -> str:
        return self.send(f"{word} {place}")[0]

    def _operate(self, statement: str) -> None:
        for line in self.send(statement):
            raise Refused(line)

    def _load(self, name: str, form: str, file: Name, by: str) -> int:
        line = self.send(f"load {name} {form} {quoted(os.fspath(file))}{by}")[0]
        return replies.number_behind(line, "loaded")

    def _trace_of(self, place: Where, line: str) -> Trace:
        trace = replies.read_trace(line)
        return trace._replace(end=self._told_apart(trace.end, place, trace.segments[-1].low))

    def _told_apart(self, end: replies.End, place: Where, tid: int) -> replies.End:
        """An end that is written `new` or `start`, where a source may have that name: its root is written so too."""
        if end.kind == "copy" or end.kind not in self._sources_like_ends():
            return end
        is_source = self.src(place) is None if end.kind == "new" else tid > 0
        return replies.End("copy", Place(end.kind), end.tid) if is_source else end

    def _sources_like_ends(self) -> Set[str]:
        if self._odd_sources is None:
            self._odd_sources = {it for it in ("new", "start") if not self.send(f"show {it}")[0].startswith("refused")}
        return self._odd_sources

    def _open(self) -> None:
        """Waits until the call has opened its store or read its start tree."""
        reply = self._queue("src T")
        try:
            self._wait_for(reply)
        except Ended:
            if not reply.lines:
                raise
        line = reply.lines[0]
        if line.startswith(_MARKER_ANSWER):
            return
        status = self._leave()
        if line.startswith("refused"):
            raise Refused(line)
        raise Ended("the words after cpdb aren't understood" if line.startswith("usage: ") else line, status)

    def _queue(self, statement: str) -> _Reply:
        if self._call.returncode is not None:
            raise Ended(self._last_line, self._call.returncode)
        text = statement_of(statement)
        word = first_word(text)
        front = f"@{self._speaker} " if self._speaker else ""
        reply = _Reply(word, front)
        if word:
            self._unsent += f"{front}{text};{front + _MARKER if reply.is_operation else ''}".encode("utf-8")
            self._waiting.append(reply)
        return reply

    def _wait_for(self, reply: _Reply) -> None:
        while not reply.is_done:
            wants_input = [self._input] if self._unsent and self._takes_input else []
            readable, writable, _ = select.select([self._output], wants_input, [])
            if writable:
                self._write()
            if readable:
                self._read()

    def _write(self) -> None:
        try:
            del self._unsent[: os.write(self._input, self._unsent[:_AHEAD])]
        except BlockingIOError:
            pass
        except BrokenPipeError:
            self._takes_input = False

    def _read(self) -> None:
        piece = os.read(self._output, 1 << 20)
        if not piece:
            self._leave()
            raise Ended(self._last_line, self._call.returncode)
        if b"\n" not in piece:
            self._unread.append(piece)
            return
        lines, _, rest = b"".join([*self._unread, piece]).rpartition(b"\n")
        self._unread = [rest] if rest else []
        for line in lines.decode("utf-8").split("\n"):
            self._take(line)

    def _take(self, line: str) -> None:
        self._last_line = line
        if line.startswith("error: ") or not self._waiting:
            return
        reply = self._waiting[0]
        if reply.word == "load":
            self._odd_sources = None
        reply.take(line)
        if reply.is_done:
            self._waiting.popleft()

    def _leave(self) -> int:
        """Closes the call's input, reads what it still writes, and answers its status."""
        if self._call.returncode is not None:
            return self._call.returncode
        assert self._call.stdin and self._call.stdout
        self._takes_input = False
        self._call.stdin.close()
        while True:
            piece = os.read(self._output, 1 << 20)
            if not piece:
                break
            self._unread.append(piece)
        self._call.stdout.close()
        for line in b"".join(self._unread).split(b"\n"):
            if line:
                self._last_line = line.decode("utf-8")
        self._unread = []
        return self._call.wait()
