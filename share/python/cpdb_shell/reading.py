"""A `scratch` beside the session reads each statement first, so that one that can't be read is never sent."""
import re
from typing import NamedTuple, Optional

from cpdb import Session

from .interrupts import uninterrupted
from .text import bytes_before, characters_before

_FAULT = re.compile(r"refused: (syntax|bad escape|label too long|place too deep|place too long|bad value) at (\d+)")
_TOO_LONG = "statement too long"


class Fault(NamedTuple):
    """Why a text can't be read, and the offset, in characters, where it goes wrong; None where it is too long."""

    what: str
    at: Optional[int]

    def line(self, text: str) -> str:
        """The refusal, as the program writes it of this text."""
        return f"refused: {self.what}" if self.at is None else f"refused: {self.what} at {bytes_before(text, self.at)}"


class Reader:
    """Reads statements without carrying them out.

    Its session is in memory and stays in a failed transaction. There an operation is refused as soon as it is read, a
    `load` before it opens its file, and a query has a tree of one place to answer from.
    """

    def __init__(self) -> None:
        self._session = Session.scratch("n")
        self._fail()

    def fault(self, text: str) -> Optional[Fault]:
        """Why this one statement can't be read, or None where it can."""
        try:
            text.encode("utf-8")
        except UnicodeEncodeError as error:
            return Fault("syntax", error.start)
        with uninterrupted():
            line = self._session.send(text)[0]
            if line.startswith(("aborted", "refused commit")):
                self._fail()
        found = _FAULT.fullmatch(line)
        if found:
            return Fault(found[1], characters_before(text, int(found[2])))
        return Fault(_TOO_LONG, None) if line == f"refused: {_TOO_LONG}" else None

    def fault_within(self, before: str, part: str, after: str) -> Optional[Fault]:
        """Why a part can't be read where it stands between these texts; its offset is that in the part, or the part's length."""
        fault = self.fault(before + part + after)
        if not fault or fault.at is None:
            return fault
        return Fault(fault.what, min(max(fault.at - len(before), 0), len(part)))

    def close(self) -> None:
        self._session.close()

    def _fail(self) -> None:
        self._session.send("this can't be read")
