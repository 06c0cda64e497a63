"""Ctrl-C while an answer of the program is under way."""
import signal
import threading
from contextlib import contextmanager
from types import FrameType
from typing import Iterator, List, Optional


@contextmanager
def uninterrupted() -> Iterator[List[int]]:
    """Lets Ctrl-C wait until an answer is read whole, so that the next one isn't taken for it; gives what was caught."""
    caught: List[int] = []

    def note(number: int, _frame: Optional[FrameType]) -> None:
        caught.append(number)

    if threading.current_thread() is not threading.main_thread():
        yield caught
        return
    before = signal.signal(signal.SIGINT, note)
    try:
        yield caught
    finally:
        signal.signal(signal.SIGINT, before)
