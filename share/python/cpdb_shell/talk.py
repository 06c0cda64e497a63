"""The session to which statements go, with what is known of its open transactions and of its sources."""
import re
from typing import Dict, List, Optional, Tuple

from cpdb import Place, Session, Stats, Tree, frames, read_label

from .interrupts import uninterrupted
from .mirror import Mirror
from .text import Token, tokens_of

OPERATIONS = ("ins", "del", "copy")
_CHANGES = (*OPERATIONS, "commit", "abort", "load")
_OWNED = re.compile(r'([ \t\n\r]*@([A-Za-z][A-Za-z0-9_]{0,31}))(?=[\x00-\x20";{}:,]|\Z)')


class Transaction:
    """The open transaction: the operations that it holds, and the number of the one at which it failed."""

    def __init__(self) -> None:
        self.held: List[str] = []
        self.failed_at: Optional[int] = None


class Sources:
    """The names of the loaded sources. Those of a store are read from its file when they are first asked for."""

    def __init__(self, store: Optional[str]) -> None:
        self._store = store
        self._loaded: List[str] = []
        self._kept: Optional[List[str]] = None if store else []

    def names(self) -> List[str]:
        if self._kept is None:
            self._kept = self._names_in_file()
        return sorted({*self._kept, *self._loaded})

    def loaded(self, name: str) -> None:
        self._loaded.append(name)

    def _names_in_file(self) -> List[str]:
        with open(self._store or "", "rb") as file:
            bodies = [it.body for it in frames(file.read()).frames if it.tag == "E" and it.body[:1] == b"\x02"]
        return [it[2:2 + it[1]].decode("utf-8") for it in bodies]


class Talk:
    """What one curator sends: his open transaction as counted from what was sent and answered, and what stands in his trees."""

    def __init__(self, session: Session, sources: Sources, name: Optional[str] = None) -> None:
        self.sources, self.name = sources, name
        self.mirror = Mirror(self._show)
        self.transaction = Transaction()
        #: The operations of the transaction that was last given up.
        self.given_up: List[str] = []
        self._session = session

    def send(self, text: str) -> List[str]:
        """Sends one statement, and answers its lines. Ctrl-C meanwhile is told afterwards, and only of a query."""
        tokens = tokens_of(text)
        with uninterrupted() as caught:
            lines = self._speaking().send(text)
            self._note(text, tokens, lines)
        if caught and tokens[0].text not in _CHANGES:
            raise KeyboardInterrupt
        return lines

    def stats(self) -> Stats:
        with uninterrupted():
            return self._speaking().stats()

    def again(self) -> List[str]:
        """Sends once more what the transaction held that has failed or was last given up; the lines of what is refused."""
        statements = self.given_up
        if self.transaction.failed_at is not None:
            statements = self.transaction.held
            self.send("abort")
        return [line for it in statements for line in self.send(it)]

    def _show(self, place: Place) -> Tree:
        with uninterrupted():
            return self._speaking().show(place)

    def _speaking(self) -> Session:
        """The session, with this curator as who speaks."""
        if self.name:
            self._session.speaker = self.name
        return self._session

    def _note(self, text: str, tokens: List[Token], lines: List[str]) -> None:
        word = tokens[0].text
        if self.name and lines == ["refused: statement too long"]:
            # In a session of several curators such a text is nobody's.
            return
        if word in OPERATIONS and lines:
            self._note_failure()
        elif word in OPERATIONS:
            self._note_operation(text, tokens)
        elif word in ("commit", "abort"):
            self._note_end(lines[0].startswith("committed"))
        elif lines[0].startswith("loaded "):
            self.sources.loaded(lines[0].split()[1])

    def _note_failure(self) -> None:
        if self.transaction.failed_at is None:
            self.transaction.failed_at = len(self.transaction.held) + 1
            self.mirror.given_up()

    def _note_operation(self, text: str, tokens: List[Token]) -> None:
        if not self.transaction.held:
            self.mirror.settled()
        self.transaction.held.append(text)
        place = Place.read(tokens[-1].text)
        if tokens[0].text == "ins":
            self.mirror.written(place / read_label(tokens[2].text))
        elif tokens[0].text == "del":
            self.mirror.removed(place / read_label(tokens[1].text))
        else:
            self.mirror.written(place)

    def _note_end(self, is_committed: bool) -> None:
        if is_committed:
            self.given_up = []
            self.mirror.settled()
        else:
            self.given_up = self.transaction.held or self.given_up
            self.mirror.given_up()
        self.transaction = Transaction()


class Talks:
    """The curators of a session: one, or in a session of `share` those who have spoken, of whom one speaks `now`."""

    def __init__(self, session: Session, sources: Sources) -> None:
        self._session, self._sources = session, sources
        self.now = Talk(session, sources, session.speaker)
        self._all: Dict[Optional[str], Talk] = {session.speaker: self.now}

    @property
    def are_several(self) -> bool:
        """Whether the session takes several curators."""
        return self._session.speaker is not None

    @property
    def names(self) -> List[str]:
        """Who has spoken, where the session takes several."""
        return sorted(it for it in self._all if it)

    @property
    def held(self) -> int:
        """How many operations the open transactions hold."""
        return sum(len(it.transaction.held) for it in self._all.values())

    def of(self, name: Optional[str]) -> Talk:
        """The talk of a curator; None stands for the one who speaks now."""
        if name is None:
            return self.now
        if name not in self._all:
            self._all[name] = Talk(self._session, self._sources, name)
        return self._all[name]

    def told_commit(self, committer: Talk) -> None:
        """A curator has committed: the tree that the others have seen as the committed one is that no more."""
        for it in self._all.values():
            if it is not committer:
                it.mirror.outdated(bool(it.transaction.held) and it.transaction.failed_at is None)

    def owned(self, text: str) -> Tuple[Optional[str], str]:
        """Whose a text is, and the statement in it, with blanks in the place of its `@NAME`; None where it begins with none."""
        found = _OWNED.match(text) if self.are_several else None
        if not found:
            return None, text
        return found[2], " " * found.end() + text[found.end():]
