"""How answers are set out on the screen: trees indented, a trace one place a line, a mark under what can't be read."""
import re
import unicodedata
from typing import Dict, List, Optional, Sequence, Tuple

from cpdb import Trace, read_trace

from .text import Typed

_MARKS = re.compile(r'"[^"\\]*(?:\\.[^"\\]*)*"|[{},]', re.DOTALL)
_STEP = "  "
_WIDEST_PLACE = 60


def answer(line: str, width: int) -> List[str]:
    """The lines that show a reply on a screen of this width."""
    if line.startswith("show "):
        return indented(line, width)
    if line.startswith("trace "):
        return segments(line)
    return [line]


def indented(line: str, width: int) -> List[str]:
    """A line with a tree, each node over several lines that doesn't fit on one. Only white space is other than in the line."""
    if len(line) <= width:
        return [line]
    marks, closing = _marks_of(line)
    lines: List[str] = []
    depth, start, index = 0, 0, 0
    while index < len(marks):
        at, mark = marks[index]
        if mark == "{":
            close = closing[index]
            end = marks[close][0]
            if end == at + 1 or len(_STEP) * depth + end - start + 2 <= width:
                index = close + 1
                continue
            lines.append(_STEP * depth + line[start:at + 1])
            depth, start = depth + 1, at + 1
        elif mark == ",":
            lines.append(_STEP * depth + line[start:at + 1])
            start = at + 2
        else:
            lines.append(_STEP * depth + line[start:at])
            depth, start = depth - 1, at
        index += 1
    return [*lines, _STEP * depth + line[start:]]


def _marks_of(line: str) -> Tuple[List[Tuple[int, str]], Dict[int, int]]:
    """The braces and commas outside quotation marks, and for each `{` the index of the mark that closes it."""
    marks = [(it.start(), it.group()) for it in _MARKS.finditer(line) if it.group() in "{},"]
    open_ones: List[int] = []
    closing: Dict[int, int] = {}
    for index, (_, mark) in enumerate(marks):
        if mark == "{":
            open_ones.append(index)
        elif mark == "}":
            closing[open_ones.pop()] = index
    return marks, closing


def segments(line: str) -> List[str]:
    """A trace with a line for each place, newest first, and one for what the data came from before."""
    trace: Trace = read_trace(line)
    places = [str(it.place) for it in trace.segments]
    end = str(trace.end.place) if trace.end.kind == "copy" else trace.end.kind
    broad = max([len(it) for it in places if len(it) <= _WIDEST_PLACE], default=0)
    rows = [f"{place.ljust(broad)}  @{it.low}..{it.high}" for place, it in zip(places, trace.segments)]
    head = f"trace {places[0]}:"
    return [head, f"    {rows[0]}", *(f"  < {it}" for it in rows[1:]), f"  < {end}"]


def width_of(text: str) -> int:
    """How many columns a text takes on a terminal."""
    return sum(_width_of_character(it) for it in text)


def _width_of_character(it: str) -> int:
    if unicodedata.category(it) in ("Mn", "Me", "Cf"):
        return 0
    return 2 if unicodedata.east_asian_width(it) in "WF" else 1


def visible(text: str) -> str:
    """A text on one line: a tab as a blank, and any other control character as a question mark."""
    return "".join(" " if it == "\t" else "?" if unicodedata.category(it) in ("Cc", "Cs") else it for it in text)


def marked(typed: Typed, offset: int, width: int) -> List[str]:
    """The line in which an offset of a statement stands, and a mark under it."""
    at = typed.start + offset
    start = typed.lines.rfind("\n", 0, at) + 1
    end = typed.lines.find("\n", at)
    line = visible(typed.lines[start:] if end < 0 else typed.lines[start:end])
    before, line = _window(line, at - start, width - len(_STEP))
    return [_STEP + line, _STEP + " " * before + "^"]


def _window(line: str, at: int, width: int) -> Tuple[int, str]:
    """What of a line is shown round a character of it, and how many columns stand before that character."""
    first, last = 0, len(line)
    if width_of(line) >= width:
        half = max(width // 2 - 6, 8)
        first, last = max(0, at - half), min(len(line), at + half)
    left = "" if first == 0 else ".. "
    right = "" if last == len(line) else " .."
    return width_of(left + line[first:at]), left + line[first:last] + right


def columns(words: Sequence[str], width: int, most_lines: Optional[int] = None) -> List[str]:
    """Words in columns, from top to bottom, and how many are left out."""
    if not words:
        return []
    broad = max(map(width_of, words)) + 2
    across = max(1, width // broad)
    shown = words if most_lines is None else words[: across * max(1, most_lines)]
    down = -(-len(shown) // across)
    lines = ["".join(it + " " * (broad - width_of(it)) for it in shown[row::down]).rstrip() for row in range(down)]
    return lines if len(shown) == len(words) else [*lines, f"and {len(words) - len(shown):,} more"]
