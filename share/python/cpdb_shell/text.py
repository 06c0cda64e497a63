"""Text that is typed: where its statements end, which tokens they have, and where an offset stands in it."""
import re
from typing import List, NamedTuple, Optional

BLANK = " \t\n\r"
TRIGGER = re.compile(r'[\x00-\x20";{}:,]')
_TOKEN = re.compile(r'[{}:,]|"[^"\\]*(?:\\.[^"\\]*)*"?|[^\x00-\x20";{}:,]+|[^ \t\n\r]', re.DOTALL)
_OUTSIDE = re.compile(r'[";{}]')
_INSIDE = re.compile(r'[^"\\]*(?:\\.[^"\\]*)*', re.DOTALL)


class Token(NamedTuple):
    """A token, with its place in the text."""

    text: str
    start: int
    end: int


def tokens_of(text: str) -> List[Token]:
    """The tokens of a text that may be unfinished: a quotation mark that isn't closed reaches to the end."""
    return [Token(it.group(), it.start(), it.end()) for it in _TOKEN.finditer(text)]


def end_of_tree(tokens: List[Token], first: int) -> Optional[int]:
    """The index behind the tree that begins at the token `first`, or None where it isn't finished."""
    depth = 0
    for index in range(first, len(tokens)):
        depth += {"{": 1, "}": -1}.get(tokens[index].text, 0)
        if depth <= 0:
            return index + 1
    return None


class Typed(NamedTuple):
    """A statement as it was typed: the lines in which it stands, and where in them."""

    lines: str
    start: int
    end: int

    @property
    def text(self) -> str:
        return self.lines[self.start:self.end]


class Cutter:
    """Cuts lines into statements.

    A statement ends at a `;` outside quotation marks, or at the end of a line where quotation marks and braces are closed.
    Inside quotation marks a backslash passes over the next character.
    """

    def __init__(self) -> None:
        self.drop()

    def drop(self) -> None:
        """Gives up what isn't finished."""
        self._lines, self._start, self._depth, self._is_inside = "", 0, 0, False
        self._ended: List[Typed] = []

    def begun(self, text: str) -> str:
        """The beginning of the statement that is typed, where this text is typed of the next line."""
        cutter = Cutter()
        cutter._lines = self._lines + text
        cutter._scan(0)
        return cutter.unfinished

    @property
    def unfinished(self) -> str:
        """What was typed of a statement that goes on in the next line."""
        return self._lines[self._start:]

    @property
    def is_waiting(self) -> bool:
        """Whether what was typed goes on in the next line."""
        return bool(self._lines)

    def add(self, line: str) -> List[Typed]:
        """The statements up to the end of this line; none where it has none, or where a statement goes on in the next line."""
        at = len(self._lines)
        self._lines += f"{line}\n"
        self._scan(at)
        return [] if self._is_inside or self._depth > 0 else self.finish()

    def finish(self) -> List[Typed]:
        """The statements up to here, the last one as it stands."""
        self._end_at(len(self._lines) - 1)
        ended = [Typed(self._lines[:-1], it.start, it.end) for it in self._ended]
        self.drop()
        return ended

    def is_in_quotation_marks(self) -> bool:
        return self._is_inside

    def _scan(self, at: int) -> None:
        while at < len(self._lines):
            if self._is_inside:
                at = _INSIDE.match(self._lines, at).end() + 1  # type: ignore[union-attr]
                self._is_inside = at > len(self._lines)
                continue
            found = _OUTSIDE.search(self._lines, at)
            if not found:
                return
            at = found.end()
            self._take(found.group(), found.start())

    def _take(self, mark: str, at: int) -> None:
        if mark == '"':
            self._is_inside = True
        elif mark == ";":
            self._end_at(at)
            self._start, self._depth = at + 1, 0
        else:
            self._depth += 1 if mark == "{" else -1

    def _end_at(self, end: int) -> None:
        if self._lines[self._start:end].strip(BLANK):
            self._ended.append(Typed("", self._start, end))


def bytes_before(text: str, offset: int) -> int:
    """How many bytes stand before a character of a text."""
    return len(text[:offset].encode("utf-8"))


def characters_before(text: str, offset: int) -> int:
    """How many characters stand before a byte of a text."""
    return len(text.encode("utf-8")[:offset].decode("utf-8", "ignore"))
