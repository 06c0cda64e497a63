"""Lines from a terminal, with editing, history and completion where Python has readline, or from any other input."""
import os
import shutil
import sys
from typing import BinaryIO, Callable, List, Optional, Sequence, Tuple, Union

from cpdb import Ended

from .completion import Choices
from .layout import columns

try:
    import readline
except ImportError:  # pragma: no cover
    readline = None  # type: ignore[assignment]

# Where readline begins the piece that is completed, as the tokens of statements do outside quotation marks.
_DELIMITERS = " \t\n{}:,;"
_LONGEST_HISTORY = 10_000
_AT_ONCE = 8_192

def say(*lines: str) -> None:
    """Writes lines to standard output at once. Ctrl-C ends it, and nothing is left to be written later."""
    left = memoryview("".join(f"{it}\n" for it in lines).encode("utf-8", "surrogateescape"))
    while left:
        left = left[os.write(sys.stdout.fileno(), left[:_AT_ONCE]):]


#: What can stand at the end of the text before the cursor, when this text comes after it.
Complete = Callable[[str, str], Choices]


class Pipe:
    """An input that is no terminal."""

    is_terminal = False

    def __init__(self, file: BinaryIO) -> None:
        self._file = file

    def read(self, prompt: str) -> str:
        """The next line; EOFError at the end. Bytes that aren't UTF-8 are kept as surrogates."""
        line = self._file.readline()
        if not line:
            raise EOFError
        return (line[:-1] if line.endswith(b"\n") else line).decode("utf-8", "surrogateescape")

    def ask(self, question: str) -> str:
        return ""

    def remember(self, text: str) -> None:
        """A pipe has no history."""


class Terminal:
    """A terminal, at which prompts are written."""

    is_terminal = True

    def __init__(self, complete: Complete) -> None:
        self._complete = complete
        self._prompt = ""
        self._found: List[str] = []
        self._shown: List[str] = []
        self._history = history_file()
        # Editing takes both ends of a terminal, and prompts don't belong into an answer that goes elsewhere.
        self._is_editable = readline is not None and sys.stdout.isatty()
        if self._is_editable:
            self._set_up()

    def read(self, prompt: str) -> str:
        """A line that is typed; EOFError at Ctrl-D, KeyboardInterrupt at Ctrl-C."""
        self._prompt = prompt
        if self._is_editable:
            return input(prompt)
        sys.stderr.write(prompt)
        sys.stderr.flush()
        line = sys.stdin.readline()
        if not line:
            raise EOFError
        return line.rstrip("\n")

    def ask(self, question: str) -> str:
        """The answer to a question, which isn't kept."""
        return self.read(question)

    def remember(self, text: str) -> None:
        """Keeps what was typed, as one line, if it isn't what was typed before."""
        line = " ".join(it.strip() for it in text.split("\n") if it.strip())
        if not self._is_editable or not line:
            return
        last = readline.get_current_history_length()
        if last and readline.get_history_item(last) == line:
            return
        readline.add_history(line)
        try:
            if hasattr(readline, "append_history_file"):
                readline.append_history_file(1, self._history)
            else:
                readline.write_history_file(self._history)
        except OSError:
            pass

    def _set_up(self) -> None:
        readline.set_auto_history(False)
        readline.set_completer_delims(_DELIMITERS)
        readline.set_completer(self._choice)
        readline.set_completion_display_matches_hook(self._show_choices)
        # Some builds of Python have libedit in the place of readline.
        readline.parse_and_bind("bind ^I rl_complete" if "libedit" in (readline.__doc__ or "") else "tab: complete")
        readline.set_history_length(_LONGEST_HISTORY)
        self._read_history()

    def _read_history(self) -> None:
        try:
            os.makedirs(os.path.dirname(self._history), mode=0o700, exist_ok=True)
            os.close(os.open(self._history, os.O_CREAT | os.O_RDWR, 0o600))
            readline.read_history_file(self._history)
            if readline.get_current_history_length() >= _LONGEST_HISTORY:
                readline.write_history_file(self._history)
        except OSError:
            pass

    def _choice(self, piece: str, number: int) -> Optional[str]:
        """The choice with this number for the piece before the cursor, as readline asks for them."""
        if number == 0:
            self._found, self._shown = self._choices(piece)
        return self._found[number] if number < len(self._found) else None

    def _choices(self, piece: str) -> Tuple[List[str], List[str]]:
        line, end = readline.get_line_buffer(), readline.get_endidx()
        try:
            found = self._complete(line[:end], line[end:])
        except (Ended, OSError, ValueError):
            return [], []
        token = line[:end][-found.length:] if found.length else ""
        cut = len(token) - len(piece)
        fitting = [it for it in found.choices if not cut or it.text.startswith(token[:cut])]
        return [it.text[cut:] for it in fitting], [it.shown for it in fitting]

    def _show_choices(self, _piece: str, _found: Sequence[str], _longest: int) -> None:
        """Writes the choices below the line, and the line again."""
        size = shutil.get_terminal_size()
        say("", *columns(self._shown, size.columns, max(4, size.lines - 4)))
        print(self._prompt + readline.get_line_buffer(), end="", flush=True)
        readline.redisplay()


def history_file() -> str:
    """Where the history is kept between sessions: the variable CPDB_HISTORY, else cpdb/history in the folder for states."""
    folder = os.environ.get("XDG_STATE_HOME") or os.path.join(os.path.expanduser("~"), ".local", "state")
    return os.path.abspath(os.environ.get("CPDB_HISTORY") or os.path.join(folder, "cpdb", "history"))


Lines = Union[Pipe, Terminal]
