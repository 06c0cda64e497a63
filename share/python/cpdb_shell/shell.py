"""The shell itself: it reads lines, has them read by the reader, carries them out, and says what comes of it."""
import shutil
import sys
from typing import List, Optional, Tuple

from cpdb.tool import counted

from .completion import Choices, choices
from .layout import answer, marked, visible
from .own import (FORMS, Command, Mistyped, Put, Reason, Refusal, Statement, Turn, Word, forms_of, read_command,
                  statement_for_reason, statements_for)
from .reading import Fault, Reader
from .talk import OPERATIONS, Talk, Talks
from .terminal import Lines, say
from .text import BLANK, Cutter, Typed, tokens_of

_LONGEST_NAME = 24
_NARROWEST = 40
_WIDTH_OF_FILES = 100
_MORE_HELP = """
A ; ends a statement, and so does the end of a line, unless quotation marks or
braces are open: it goes on in the next line then. The prompt tells how many
operations the open transaction holds. A refused one fails it: again, or abort.
Tab completes. Ctrl-C gives up what is typed, and leaves the transaction."""


class Quit(Exception):
    """The shell is to be left."""


class Shell:
    """A shell over a session."""

    def __init__(self, name: str, talks: Talks, reader: Reader, lines: Lines, is_reading: bool) -> None:
        self._name = visible(name if len(name) <= _LONGEST_NAME else f"..{name[-_LONGEST_NAME + 2:]}")
        self._talks, self._reader, self._lines = talks, reader, lines
        self._is_reading = is_reading
        self._cutter = Cutter()
        #: Whether something was refused.
        self.has_refused = False

    def run(self) -> None:
        """Reads lines to the end of the input, or until the shell is left."""
        while True:
            try:
                self._take(self._lines.read(self._prompt()))
            except KeyboardInterrupt:
                self._give_up_typed()
            except EOFError:
                if self._may_leave_at_end():
                    break
            except Quit:
                if self._may_leave():
                    break
        self._tell_given_up()

    def choices(self, before: str, after: str) -> Choices:
        """What can stand at the cursor, where these texts stand before it and after it on the line."""
        begun = self._cutter.begun(before)
        name, rest = self._talks.owned(begun)
        if name and begun.endswith(name) and not rest.strip(BLANK):
            # The name itself is being typed.
            name, rest = None, begun
        return choices(self._talks.of(name), rest, after, self._talks.names)

    @property
    def _talk(self) -> Talk:
        return self._talks.now

    # The prompt, and the ways out

    def _prompt(self) -> str:
        transaction = self._talk.transaction
        count = ""
        if transaction.failed_at is not None:
            count = f" (failed at {transaction.failed_at})"
        elif transaction.held:
            count = f" ({len(transaction.held)})"
        speaker = f" @{self._talk.name}" if self._talk.name else ""
        prompt = f"{self._name}{speaker}{count}> "
        return f"{'..> ':>{len(prompt)}}" if self._cutter.is_waiting else prompt

    def _give_up_typed(self) -> None:
        self._cutter.drop()
        say("")

    def _may_leave_at_end(self) -> bool:
        """Ends what was typed at the end of the input, and says whether the shell is left there."""
        if not self._lines.is_terminal:
            self._end_of_pipe()
            return True
        say("")
        if self._cutter.is_waiting:
            self._cutter.drop()
            return False
        return self._may_leave()

    def _end_of_pipe(self) -> None:
        if self._cutter.is_waiting and self._cutter.is_in_quotation_marks():
            rest = self._cutter.unfinished.rstrip("\n")
            self._refused(f"refused: syntax at {len(rest.encode('utf-8', 'surrogateescape'))}")
        elif self._cutter.is_waiting:
            try:
                self._run_all(self._cutter.finish())
            except Quit:
                pass

    def _tell_given_up(self) -> None:
        held = self._talks.held
        if held and not self._lines.is_terminal:
            print(f"cpdb shell: {counted(held, 'operation')} given up, not committed", file=sys.stderr)

    def _may_leave(self) -> bool:
        """Asks where operations would be given up."""
        held = self._talks.held
        if not held or not self._lines.is_terminal:
            return True
        try:
            said = self._lines.ask(f"{counted(held, 'operation')} not committed. Leave, and give up what is held? (y/n) ")
        except EOFError:
            say("")
            return True
        except KeyboardInterrupt:
            say("")
            return False
        return said.strip().lower() in ("y", "yes")

    # Lines and statements

    def _take(self, text: str) -> None:
        """A line, or several where they were pasted."""
        for line in text.split("\n"):
            typed = self._cutter.add(line)
            if not self._cutter.is_waiting and typed:
                self._lines.remember(typed[0].lines)
                self._run_all(typed)

    def _run_all(self, typed: List[Typed]) -> None:
        """Reads all statements first, so that none is sent where one is mistyped; then carries them out."""
        commands: List[Tuple[Optional[str], Command]] = []
        for it in typed:
            try:
                commands.append(self._read(it.text))
            except Mistyped as mistyped:
                self._say_mistyped(it, mistyped, len(typed) > 1)
                return
        for number, (name, command) in enumerate(commands, 1):
            is_done = self._run_as(name, command)
            if not is_done and self._lines.is_terminal and number < len(commands):
                say("what stands behind it on the line was not sent")
                return

    def _read(self, text: str) -> Tuple[Optional[str], Command]:
        """A statement, and the curator whose it is where it names one; a name alone is the turn of that one."""
        name, rest = self._talks.owned(text)
        if name and not rest.strip(BLANK):
            return None, Turn(name)
        return name, read_command(self._reader, rest)

    def _run_as(self, name: Optional[str], command: Command) -> bool:
        """Carries out a command of a curator; None stands for the one who speaks now, who speaks afterwards too."""
        if isinstance(command, Turn):
            self._talks.now = self._talks.of(command.name)
            return True
        before, self._talks.now = self._talks.now, self._talks.of(name)
        try:
            return self._run(command)
        finally:
            self._talks.now = before

    def _say_mistyped(self, typed: Typed, mistyped: Mistyped, is_one_of_many: bool) -> None:
        fault = mistyped.fault
        self._refused(fault.line(typed.text))
        if fault.at is not None:
            say(*marked(typed, fault.at, self._width()))
        _, rest = self._talks.owned(typed.text)
        for form in forms_of(tokens_of(rest)[0].text) if fault.what == "syntax" else []:
            say(f"  {form.words}")
        if fault.at is not None and _splits_place(rest, fault):
            say('  a place with a blank or one of ; { } : , in it stands in quotation marks: "T/x y"')
        if is_one_of_many:
            say("nothing of the line was sent")

    def _run(self, command: Command) -> bool:
        """Carries out a command, and says whether nothing of it was refused."""
        try:
            if isinstance(command, Word):
                return self._run_word(command)
            if self._is_reading and _changes(command):
                raise Refusal("refused: the store is open for reading alone")
            if isinstance(command, Put):
                return self._send_all(statements_for(command, self._talk))
            if isinstance(command, Reason):
                return self._commit_with(command)
            return self._send_all([command.text])
        except Refusal as refusal:
            self._refused(str(refusal))
            return False

    def _run_word(self, command: Word) -> bool:
        if command.word == "quit":
            raise Quit
        if command.word == "help":
            self._help(command.argument)
            return True
        if self._talk.transaction.held and self._talk.transaction.failed_at is None:
            raise Refusal("refused again: a transaction is open")
        if not self._talk.transaction.held and not self._talk.given_up:
            raise Refusal("refused again: nothing was given up")
        refused = self._talk.again()
        for line in refused:
            self._refused(line)
        if not refused:
            say(f"{counted(len(self._talk.transaction.held), 'operation')} held")
        return not refused

    def _commit_with(self, reason: Reason) -> bool:
        """Commits with a reason. Where nothing is held, or the transaction has failed, the refusal of `commit` says so."""
        transaction = self._talk.transaction
        if not transaction.held or transaction.failed_at is not None:
            return self._send_all(["commit"])
        return self._send_all([statement_for_reason(reason, self._talk), "commit"])

    def _send_all(self, statements: List[str]) -> bool:
        """Sends the statements of one command. Where one is refused, `again` doesn't take those before it up either."""
        transaction = self._talk.transaction
        held, had_failed = len(transaction.held), transaction.failed_at is not None
        if all(self._send(it) for it in statements):
            return True
        del transaction.held[held:]
        if transaction.failed_at is not None and not had_failed:
            self._say_failed(held)
        return False

    def _send(self, text: str) -> bool:
        lines = self._talk.send(text)
        for line in lines:
            if line.startswith("refused"):
                self._refused(line)
            else:
                say(*answer(line, self._width()))
        if lines and lines[0].startswith("committed"):
            self._talks.told_commit(self._talk)
        if lines and lines[0].startswith("refused commit: stale") and self._lines.is_terminal:
            say("somebody else has committed since: again begins the transaction anew, on T as it is now")
        return not any(it.startswith("refused") for it in lines)

    # What is said

    def _refused(self, line: str) -> None:
        self.has_refused = True
        say(line)

    def _say_failed(self, held: int) -> None:
        if self._lines.is_terminal:
            before = f"again begins it anew with the {counted(held, 'operation')} before this one, " if held else ""
            say(f"the transaction has failed: {before}abort gives it up")

    def _help(self, word: str) -> None:
        forms = forms_of(word) if word else FORMS
        broad = max(len(it.words) for it in FORMS)
        for form in forms:
            say(f"{form.words.ljust(broad)}  {form.about}")
        if not word:
            say(_MORE_HELP)

    def _width(self) -> int:
        if not sys.stdout.isatty():
            return _WIDTH_OF_FILES
        return max(_NARROWEST, shutil.get_terminal_size().columns)


def _splits_place(text: str, fault: Fault) -> bool:
    """Whether a fault may come of a blank in a place: a word, and for a value others after it, follows what isn't in quotation marks."""
    tokens = [it for it in tokens_of(text) if it.start <= (fault.at or 0)]
    is_word = len(tokens) > 1 and "/" in tokens[-2].text and tokens[-2].text[0] != '"' and tokens[-1].text[0] not in '"{}:,'
    return is_word and tokens[-1].start == fault.at and (fault.what == "syntax" or len(tokens_of(text)) > len(tokens))


def _changes(command: Command) -> bool:
    """Whether a command would change the database."""
    return not isinstance(command, Statement) or tokens_of(command.text)[0].text in (*OPERATIONS, "load", "commit")
