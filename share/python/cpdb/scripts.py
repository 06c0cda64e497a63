"""Scripts of statements: where each statement stands, what the program answers to each, and insertions of any size."""
import re
from typing import Dict, Iterator, List, NamedTuple, Optional, Tuple

from .replies import Ended
from .session import OPERATIONS, Session, first_word
from .spelling import Place, Tree, insert_text, label_text, tree_text
from .tool import Failure

__all__ = ["Answer", "LONGEST_SCRIPT", "LONGEST_STATEMENT", "MOST_OPERATIONS", "Script", "Statement", "answers_of",
           "answers_without_refused", "end_of", "insertions", "script_of", "shown"]

# How many statements of a transaction are left out.
MOST_LEFT_OUT = 100
LONGEST_SCRIPT, LONGEST_STATEMENT, MOST_OPERATIONS = 67_108_864, 1_048_576, 65_535

_BLANK = " \t\n\r"
# As docs/STATEMENTS.md cuts an input: a `;` outside quotation marks ends a text; inside them a backslash passes over the next
# character.
_PIECE = re.compile(r'[^";]+|"(?:[^"\\]|\\.)*"', re.DOTALL)
_BREAK = re.compile(r"[ \t]*[\r\n][ \t\r\n]*")
_CONTROL = re.compile(r"[\x00-\x1f\x7f-\x9f\u2028\u2029\u202a-\u202e\u2066-\u2069]")
_FAULT = re.compile(r"refused: (?:syntax|bad escape|label too long|place too deep|place too long|bad value) at (\d+)")


class Statement(NamedTuple):
    """A statement of a script without its end: its text from the end of the statement before, and the line and the column in
    which that begins, both from 1."""

    text: str
    line: int
    column: int

    @property
    def first_line(self) -> int:
        """The line in which its first word stands."""
        return self.place_of(len(self.text) - len(self.text.lstrip(_BLANK)))[0]

    def place_of(self, offset: int) -> Tuple[int, int]:
        """The line and the column of a character."""
        line = self.text.count("\n", 0, offset)
        column = offset - self.text.rfind("\n", 0, offset)
        return self.line + line, column if line else self.column + offset

    def place_of_fault(self, answer: str) -> Optional[Tuple[int, int]]:
        """The line and the column of the fault of which an answer tells, where it tells of one of the text."""
        found = _FAULT.fullmatch(answer)
        if not found:
            return None
        return self.place_of(len(self.text.encode("utf-8")[: int(found.group(1))].decode("utf-8", "ignore")))


class Script(NamedTuple):
    """The statements of a script, what its last `;` is followed by, and its last line."""

    statements: List[Statement]
    left: Statement

    @property
    def last_line(self) -> int:
        """The line in which the script ends."""
        return self.left.place_of(len(self.left.text))[0]


def script_of(text: str) -> Script:
    """A text cut into its statements. Texts of white space alone are none."""
    statements: List[Statement] = []
    line, column, at = 1, 1, 0
    while True:
        end = end_of(text, at)
        one = Statement(text[at:end], line, column)
        if end == len(text) or text[end] != ";":
            return Script(statements, one._replace(text=text[at:]))
        if one.text.strip(_BLANK):
            statements.append(one)
        line, column = one.place_of(end + 1 - at)
        at = end + 1


def end_of(text: str, at: int = 0) -> int:
    """Where the statement that begins at a character ends: at its `;`, at the quotation mark that isn't closed, or with the
    text."""
    found = _PIECE.match(text, at)
    while found:
        at = found.end()
        found = _PIECE.match(text, at)
    return at


def shown(text: str, longest: Optional[int] = None) -> str:
    """A statement in a line, in at most so many characters; control characters as JSON escapes them."""
    text = _BREAK.sub(" ", text.strip(_BLANK))
    text = text if longest is None or len(text) <= longest else f"{text[:longest]}.."
    return _CONTROL.sub(lambda it: f"\\u{ord(it.group()):04x}", text)


class Answer(NamedTuple):
    """A statement of a script with the lines that the program has written for it."""

    statement: Statement
    lines: List[str]


def answers_of(session: Session, statements: List[Statement]) -> Iterator[Answer]:
    """What the program answers to each statement, asked in bulk."""
    done = 0
    try:
        for statement, lines in zip(statements, session.ask_all(it.text for it in statements)):
            done += 1
            yield Answer(statement, lines)
    except Ended as error:
        if done < len(statements):
            error.args = (f"{error} in line {statements[done].first_line}",)
        raise


def answers_without_refused(session: Session, statements: List[Statement]) -> Iterator[Answer]:
    """As `answers_of`, where an operation that is refused, and a text that can't be read, is left out of its transaction.

    After each such one the operations before it are done again.
    """
    held: List[Statement] = []
    at = refused = 0
    while at < len(statements):
        if _is_end(statements[at]):
            yield from answers_of(session, statements[at: at + 1])
            held, refused, at = [], 0, at + 1
            continue
        end = next((it for it in range(at, len(statements)) if _is_end(statements[it])), len(statements))
        for answer in answers_of(session, statements[at:end]):
            yield answer
            at += 1
            if _fails(answer) and refused < MOST_LEFT_OUT:
                break
            held += [answer.statement] if first_word(answer.statement.text) in OPERATIONS else []
        else:
            continue
        refused += 1
        # What the rest of these statements was answered is passed over.
        session.send("abort")
        for _ in answers_of(session, held):
            pass


def _is_end(statement: Statement) -> bool:
    return statement.text.strip(_BLANK) in ("commit", "abort")


def _fails(answer: Answer) -> bool:
    """Whether a statement has failed its transaction."""
    if first_word(answer.statement.text) in OPERATIONS:
        return bool(answer.lines)
    return any(it == "refused: statement too long" or _FAULT.fullmatch(it) for it in answer.lines)


def insertions(parent: Place, label: str, tree: Tree) -> Iterator[str]:
    """The statements that make a tree at a label below a place, with their ends, each within the limit of a statement."""
    whole = _insertion(parent, label, tree)
    if len(whole.encode("utf-8")) <= LONGEST_STATEMENT:
        yield whole
        return
    if not isinstance(tree, dict):
        raise Failure(f"the text at {parent / label} is too long for a statement")
    first, rest = _first_part(parent, label, tree)
    yield _insertion(parent, label, first)
    for child, it in rest.items():
        yield from insertions(parent / label, child, it)


def _insertion(parent: Place, label: str, tree: Tree) -> str:
    return insert_text(parent, label, tree) + ";"


def _first_part(parent: Place, label: str, node: Dict[str, Tree]) -> Tuple[Dict[str, Tree], Dict[str, Tree]]:
    """The first children of a node that one statement holds, and the others."""
    room = LONGEST_STATEMENT - len(_insertion(parent, label, {}).encode("utf-8"))
    first: Dict[str, Tree] = {}
    rest: Dict[str, Tree] = {}
    for child, it in sorted(node.items()):
        room -= len(f", {label_text(child)} : {tree_text(it)}".encode("utf-8"))
        (rest if rest or room < 0 else first)[child] = it
    return first, rest
