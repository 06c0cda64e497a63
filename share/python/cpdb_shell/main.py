"""The words of `cpdb shell`, its sessions, and its exit statuses."""
import os
import sys
from contextlib import ExitStack
from typing import List, NamedTuple, Optional

from cpdb import Ended, Refused, Session, copy_of, is_name
from cpdb.tool import counted

from .completion import Choices
from .reading import Reader
from .shell import Shell
from .talk import Sources, Talk, Talks
from .terminal import Lines, Pipe, Terminal, say

USAGE = """usage: cpdb shell [--read] STORE [CURATOR|NAME]
       cpdb shell scratch KIND [JSON]
"""
HELP = f"""{USAGE}
A session at the terminal, over a store or in memory. Type `help` in it.

STORE is open for writing while the shell runs. With --read the shell looks at a copy of it, and changes nothing.
CURATOR stands in each commit; without it the variable CPDB_CURATOR is taken. KIND is n, t, h or ht.

A NAME is a letter and then at most 31 letters, digits or _. As such a curator the shell speaks through `cpdb share`, and
others can take their turns in it: `@ben` goes on as ben, `@ben commit` is one statement of ben's. Each has a transaction of
his own, on T as it was when he began it, and who commits first wins. It is one shell all the same: a second one of the store
ends with status 5 meanwhile.

Exit status: 0 all was done; 1 something was refused, where the input is no terminal; 2 the words aren't understood;
3 to 9 as of the program, which ended so; 70 the program isn't there. cpdb-shell(1) tells more.
"""
_LONGEST_CURATOR = 255
# What is added to the number of the signal that has ended the program.
_KILLED = 128
_KINDS = ("n", "t", "h", "ht")


class Wrong(Exception):
    """Words that aren't understood."""


class Words(NamedTuple):
    """What the words ask for: a store with its curator, or a kind with a start tree."""

    store: Optional[str]
    curator: Optional[str]
    kind: str
    start: Optional[str]
    is_reading: bool

    @property
    def name(self) -> str:
        return os.path.basename(self.store) if self.store else f"scratch {self.kind}"


def words_of(words: List[str]) -> Words:
    """Reads the words; Wrong where they aren't understood."""
    is_reading = words[:1] == ["--read"]
    rest = words[1:] if is_reading else words
    for it in rest:
        if not it or it.startswith("-"):
            raise Wrong(f"{it or 'an empty word'} isn't understood")
    if rest[:1] == ["scratch"]:
        if is_reading or len(rest) not in (2, 3) or rest[1] not in _KINDS:
            raise Wrong("after scratch a kind is wanted, n, t, h or ht, and perhaps a JSON file")
        return Words(None, None, rest[1], rest[2] if len(rest) > 2 else None, False)
    if len(rest) not in (1, 2):
        raise Wrong("a store is wanted, and perhaps a curator" if not rest else f"{rest[2]} isn't understood")
    return Words(rest[0], _curator(rest[1:]), "", None, is_reading)


def _curator(words: List[str]) -> Optional[str]:
    curator = words[0] if words else os.environ.get("CPDB_CURATOR") or None
    where = "the curator" if words else "the curator of CPDB_CURATOR"
    if curator and curator.startswith("-"):
        raise Wrong(f"{where} begins with -")
    if curator and len(os.fsencode(curator)) > _LONGEST_CURATOR:
        raise Wrong(f"{where} has more than {_LONGEST_CURATOR} bytes")
    return curator


def _session(words: Words, stack: ExitStack) -> Session:
    if words.store is None:
        return stack.enter_context(Session.scratch(words.kind, words.start))
    if words.is_reading:
        return stack.enter_context(Session.run(stack.enter_context(copy_of(words.store)), words.curator))
    if words.curator and is_name(words.curator):
        return stack.enter_context(Session.share(words.store, words.curator))
    return stack.enter_context(Session.run(words.store, words.curator))


def _greet(words: Words, talk: Talk) -> None:
    stats = talk.stats()
    say(f"{words.name}: kind {stats.kind}, {counted(stats.nodes, 'place')}, {counted(stats.transactions, 'commit')}, "
        f"{counted(stats.sources, 'source')}{', for reading alone' if words.is_reading else ''}")
    if words.store and not words.is_reading:
        turns = "; @NAME goes on as another one" if talk.name else ""
        say(f"curator {words.curator}{turns}" if words.curator else "commits have no curator: CURATOR and CPDB_CURATOR are empty")
    say("help tells what can be typed")


def _run(words: Words, stack: ExitStack) -> int:
    talks = Talks(_session(words, stack), Sources(words.store))
    reader = Reader()
    stack.callback(reader.close)
    shell: Optional[Shell] = None

    def complete(before: str, after: str) -> Choices:
        return shell.choices(before, after) if shell else Choices(0, [])

    lines: Lines = Terminal(complete) if sys.stdin.isatty() else Pipe(sys.stdin.buffer)
    shell = Shell(words.name, talks, reader, lines, words.is_reading)
    if lines.is_terminal:
        _greet(words, talks.now)
    shell.run()
    return 1 if shell.has_refused and not lines.is_terminal else 0


def main(arguments: List[str]) -> int:
    """Runs `cpdb shell` with these words after it, and answers its exit status."""
    if arguments in (["--help"], ["-h"]):
        print(HELP, end="")
        return 0
    try:
        words = words_of(arguments)
    except Wrong as wrong:
        print(f"{USAGE}cpdb shell: {wrong}", file=sys.stderr)
        return 2
    # What can't be decoded is kept as it is, to be marked as what can't be read.
    sys.stdin.reconfigure(errors="surrogateescape")  # type: ignore[attr-defined]
    return _start(words)


def _start(words: Words) -> int:
    """Runs a shell. A session that doesn't open, or that ends by itself, says how it ended, and gives the status."""
    stack = ExitStack()
    try:
        with stack:
            status = _run(words, stack)
    except Refused as refused:
        say(refused.line)
        status = 1
    except Ended as ended:
        status = _tell_end(ended, words)
    return status


def _tell_end(ended: Ended, words: Words) -> int:
    """Says how a session has ended by itself, and gives the exit status."""
    if ended.status < 0:
        print(f"cpdb shell: the program was ended by the signal {-ended.status}", file=sys.stderr)
        return _KILLED - ended.status
    if not ended.line.startswith("error: "):
        raise ended
    say(ended.line)
    if words.store and not os.path.exists(words.store):
        print(f"cpdb shell: there is no file {words.store}; cpdb init makes a store", file=sys.stderr)
    return ended.status
