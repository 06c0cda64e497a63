"""Calls of the program that are done when they end, and a private copy of a store."""
import contextlib
import os
import shutil
import subprocess
import tempfile
from typing import Iterator, List, NamedTuple, Optional, Union

from .replies import Archive, Commit, Ended, Refused, number_behind, read_archive, read_commit, read_uses
from .spelling import Place

__all__ = ["archive", "at", "copy_of", "init", "log", "program", "query", "uses", "verify"]

Name = Union[str, "os.PathLike[str]"]


def program() -> str:
    """The path of the program to run.

    That is the variable CPDB where it is set, else the `cpdb` of the repository or installation in which this module
    lies, else the one on the path.
    """
    if os.environ.get("CPDB"):
        return os.environ["CPDB"]
    folder = os.path.dirname(os.path.dirname(os.path.dirname(os.path.realpath(__file__))))
    for top in (os.path.dirname(folder), os.path.dirname(os.path.dirname(folder))):
        here = os.path.join(top, "bin", "cpdb")
        if os.access(here, os.X_OK):
            return here
    return shutil.which("cpdb") or "cpdb"


class _Done(NamedTuple):
    lines: List[str]
    status: int


def lines_of(output: bytes) -> List[str]:
    """The lines of an output, which a line feed alone ends."""
    return [it.decode("utf-8") for it in output.split(b"\n") if it]


def _call(*words: Name) -> _Done:
    """Runs a call without input; Ended where it isn't done."""
    done = subprocess.run([program(), *(os.fspath(it) for it in words)], stdin=subprocess.DEVNULL, stdout=subprocess.PIPE, check=False)
    lines = lines_of(done.stdout)
    if done.returncode not in (0, 1):
        raise Ended(lines[-1] if lines else "", done.returncode)
    return _Done(lines, done.returncode)


def init(store: Name, kind: str, start: Optional[Name] = None) -> int:
    """Makes a store, and answers how many places its start tree has. Refused where a store is there, say."""
    lines = _call("init", store, kind, *([] if start is None else [start])).lines
    return number_behind(lines[-1] if lines else "", "created")


def log(store: Name) -> List[Commit]:
    """The commits of a store, in order."""
    return [read_commit(line) for line in _call("log", store).lines[:-1]]


def verify(store: Name) -> str:
    """The line of `verify`: `agrees N`, or `differs at ..`."""
    return _call("verify", store).lines[-1]


def query(store: Name, statement: str) -> List[str]:
    """The lines that answer one query on a store, refusals as they are."""
    return _call("query", store, statement).lines


def at(store: Name, tid: int, statement: str) -> List[str]:
    """The lines that answer one `src`, `hist`, `mod`, `trace`, `from` or `show` of a place of T in a version, refusals as they are.

    They are what the program would answer if the step `tid` had been the last; 0 is the start.
    """
    return _call("at", store, str(tid), statement).lines


def archive(store: Name) -> Archive:
    """How many versions a store has, and how many ranges: longest runs of versions in which a place holds one content."""
    return read_archive(_call("archive", store).lines[-1])


def uses(store: Name, place: Union[Place, str]) -> List[Place]:
    """The places of T whose data came by a place of T or of a source, in order: itself too, where it stands in T.

    Refused where no source has the place's name.
    """
    return read_uses(_call("uses", store, str(place)).lines[-1])


@contextlib.contextmanager
def copy_of(store: Name) -> Iterator[str]:
    """A private copy of a store's file, for a session that only reads: `with copy_of(store) as copy, Session.run(copy) as s`.

    It has the history up to some commit, also where another call adds to the store meanwhile. It is removed at the end.
    Ended, with the status that the program would have, where the store can't be read.
    """
    with tempfile.TemporaryDirectory(prefix="cpdb-") as folder:
        copy = os.path.join(folder, "store")
        try:
            shutil.copyfile(store, copy)
        except FileNotFoundError:
            raise Ended(f"there is no file {os.fspath(store)}", 6) from None
        except OSError as error:
            raise Ended(f"{os.fspath(store)} can't be copied: {error.strerror or 'it is no file'}", 5) from None
        yield copy
