"""Spellings of places, labels, values and trees, both ways, as docs/STATEMENTS.md gives them under "Spellings"."""
import json
import re
from typing import Dict, Iterator, List, NamedTuple, Optional, Tuple, Union

__all__ = ["Place", "SpellingError", "Tree", "copy_text", "delete_text", "insert_text", "is_name", "label_text", "quoted", "read_label", "read_place_at", "read_tree", "read_value",
           "read_written_place", "read_written_tree", "tree_text", "value_text", "walk"]

#: What stands at a place: a value, or a node as a dict from its labels to what stands below them, in order of the labels.
Tree = Union[None, bool, int, str, Dict[str, "Tree"]]

LEAST_NUMBER, GREATEST_NUMBER = -(2**63), 2**64 - 1
LONGEST_LABEL, LONGEST_TEXT = 255, 1_048_576
DEEPEST_PLACE, LONGEST_PLACE = 64, 1_024

_TRIGGER = re.compile(r'[\x00-\x20";{}:,]')
_NAME = re.compile(r"[A-Za-z][A-Za-z0-9_]{0,31}")
_NUMBER = re.compile(r"0|-?[1-9][0-9]*")
_BAD_ESCAPE = re.compile(r"~(?![01])")
_QUOTED_TOKEN = r'"(?:[^"\\]|\\.)*"'
_WORD = r'[^\x00-\x20";{}:,]+'
_TOKEN = re.compile(rf"[ \t\n\r]*(?:(?P<mark>[{{}}:,])|(?P<quoted>{_QUOTED_TOKEN})|(?P<word>{_WORD}))", re.DOTALL)
_LABEL_OR_TEXT = re.compile(rf"({_QUOTED_TOKEN})( : )?|({_WORD}) : ", re.DOTALL)
_PLACE_TOKEN = re.compile(rf"{_QUOTED_TOKEN}|{_WORD}", re.DOTALL)
_JSON = json.JSONEncoder(ensure_ascii=False)


class SpellingError(ValueError):
    """Nothing is spelled so, or what is to be spelled has no spelling."""


def quoted(text: str) -> str:
    """The quoted text of a text."""
    return _JSON.encode(_utf8(text))


def _utf8(text: str) -> str:
    if text.isascii():
        return text
    try:
        text.encode("utf-8")
    except UnicodeEncodeError:
        raise SpellingError(f"{text!r} has half of a surrogate pair, which UTF-8 can't write") from None
    return text


def _with_quotes_where_needed(raw: str) -> str:
    return _utf8(raw) if raw and not _TRIGGER.search(raw) else quoted(raw)


def _raw_of(spelling: str, what: str) -> str:
    """The raw text of a place or label, of which this is the one spelling."""
    raw = spelling
    if spelling.startswith('"'):
        raw = _text_of(spelling, what)
    if _with_quotes_where_needed(raw) != spelling:
        raise SpellingError(f"no {what} is spelled {spelling}")
    return raw


def _text_of(token: str, what: str) -> str:
    """The text of a JSON string."""
    try:
        text = json.loads(token)
    except ValueError:
        text = None
    if not isinstance(text, str):
        raise SpellingError(f"no {what} is spelled {token}")
    return _utf8(text)


def _escaped(label: str) -> str:
    return label.replace("~", "~0").replace("/", "~1")


def _unescaped(escaped: str) -> str:
    if _BAD_ESCAPE.search(escaped):
        raise SpellingError(f"bad escape: in the label {escaped} a ~ comes before neither 0 nor 1")
    return _fitting_label(escaped.replace("~1", "/").replace("~0", "~"))


def _fitting_label(label: str) -> str:
    if len(_utf8(label).encode("utf-8")) > LONGEST_LABEL:
        raise SpellingError(f"label too long: {label[:40]}.. has more than {LONGEST_LABEL} bytes")
    return label


def is_name(text: str) -> bool:
    """Whether a text is a name, of a database or of a curator who shares a call with others."""
    return _NAME.fullmatch(text) is not None


def label_text(label: str) -> str:
    """The spelling of a label that stands alone."""
    return _with_quotes_where_needed(_escaped(_fitting_label(label)))


def read_label(text: str) -> str:
    """The label that is spelled so, where it stands alone."""
    raw = _raw_of(text, "label")
    if "/" in raw:
        raise SpellingError(f"no label is spelled {text}: a / in it is written ~1")
    return _unescaped(raw)


class Place(NamedTuple):
    """A place: the name of T or of a source, and the labels on the way down from its root."""

    name: str
    labels: Tuple[str, ...] = ()

    def __str__(self) -> str:
        raw = "/".join((self.name, *self.labels))
        if "~" in raw or raw.count("/") > len(self.labels):
            raw = "/".join([self.name, *map(_escaped, self.labels)])
        return _with_quotes_where_needed(raw)

    def __truediv__(self, label: str) -> "Place":
        """The place at a label below this one."""
        return Place(self.name, (*self.labels, label))

    @property
    def parent(self) -> Optional["Place"]:
        """The place above, or None above a root."""
        return Place(self.name, self.labels[:-1]) if self.labels else None

    @property
    def last(self) -> str:
        """The last label, or the name of a root."""
        return self.labels[-1] if self.labels else self.name

    def is_within(self, other: "Place") -> bool:
        """Whether this is the other place, or lies below it."""
        return self.name == other.name and self.labels[: len(other.labels)] == other.labels

    def moved(self, above: "Place", to: "Place") -> "Place":
        """This place, which lies within the one above, with that one's way exchanged for the other's."""
        return Place(to.name, to.labels + self.labels[len(above.labels):])

    @staticmethod
    def read(text: str) -> "Place":
        """The place that is spelled so; SpellingError where none is."""
        name, *labels = _raw_of(text, "place").split("/")
        if not is_name(name):
            raise SpellingError(f"no place is spelled {text}: {quoted(name)} isn't the name of a database")
        return Place(name, tuple(map(_unescaped, labels))).checked()

    def checked(self) -> "Place":
        """This place, where it is within the limits of places; SpellingError where it isn't."""
        if len(self.labels) > DEEPEST_PLACE:
            raise SpellingError(f"place too deep: {self} has more than {DEEPEST_PLACE} labels")
        size = len(self.name) + sum(1 + len(_fitting_label(it).encode("utf-8")) for it in self.labels)
        if size > LONGEST_PLACE:
            raise SpellingError(f"place too long: {self} has more than {LONGEST_PLACE} bytes")
        return self


def read_written_place(text: str) -> Place:
    """As `Place.read`, of a text that the program has written: several times as fast, since nothing is tested."""
    name, *labels = (json.loads(text) if text.startswith('"') else text).split("/")
    if "~" in text:
        labels = [it.replace("~1", "/").replace("~0", "~") for it in labels]
    return Place(name, tuple(labels))


def read_place_at(text: str, offset: int) -> Tuple[str, int]:
    """The spelling of a place that stands at an offset of a reply, with what may be joined to it, and where it ends."""
    found = _PLACE_TOKEN.match(text, offset)
    if not found:
        raise SpellingError(f"no place stands at {offset} of {text}")
    return found.group(), found.end()


def value_text(value: Union[None, bool, int, str]) -> str:
    """The spelling of a value."""
    if value is None or isinstance(value, bool):
        return {None: "null", True: "true", False: "false"}[value]
    if isinstance(value, int):
        if LEAST_NUMBER <= value <= GREATEST_NUMBER:
            return str(value)
        raise SpellingError(f"{value} isn't a whole number from -2^63 to 2^64-1")
    if isinstance(value, str):
        if len(_utf8(value).encode("utf-8")) > LONGEST_TEXT:
            raise SpellingError(f"text too long: {value[:40]!r}.. has more than {LONGEST_TEXT} bytes")
        return quoted(value)
    raise SpellingError(f"{value!r} is no value: null, true, false, a whole number or a text is wanted")


def read_value(text: str) -> Union[None, bool, int, str]:
    """The value that is spelled so."""
    if text.startswith('"'):
        value = _text_of(text, "value")
        value_text(value)
        return value
    constants = {"null": None, "true": True, "false": False}
    if text in constants:
        return constants[text]
    if not _NUMBER.fullmatch(text) or not LEAST_NUMBER <= int(text) <= GREATEST_NUMBER:
        raise SpellingError(f"no value is spelled {text}")
    return int(text)


def tree_text(tree: Tree) -> str:
    """The spelling of a tree, with the labels in order."""
    if not isinstance(tree, dict):
        return value_text(tree)
    rows = ", ".join(f"{label_text(label)} : {tree_text(below)}" for label, below in sorted(tree.items()))
    return f"{{{rows}}}"


def insert_text(place: Union[Place, str], label: str, tree: Tree) -> str:
    """The statement that adds a tree at a label below a place, without its end."""
    return f"ins {{{label_text(label)} : {tree_text(tree)}}} into {place}"


def delete_text(place: Union[Place, str], label: str) -> str:
    """The statement that removes what stands at a label below a place, without its end."""
    return f"del {label_text(label)} from {place}"


def copy_text(source: Union[Place, str], target: Union[Place, str]) -> str:
    """The statement that replaces what stands at the target by a copy of what stands at the source, without its end."""
    return f"copy {source} into {target}"


def read_tree(text: str) -> Tree:
    """The tree that is spelled so, as in a reply of `show` or in an `ins`."""
    tree, offset = _tree_at(text, 0)
    if text[offset:].strip(" \t\n\r"):
        raise SpellingError(f"the tree ends at {offset}, and more comes after it")
    return tree


def read_written_tree(text: str) -> Tree:
    """As `read_tree`, of a text that the program has written: some ten times as fast, since nothing is tested."""
    tree: Tree = json.loads(_LABEL_OR_TEXT.sub(_as_json, text))
    return tree


def _as_json(found: "re.Match[str]") -> str:
    """A label as the JSON string of a name, or a text value as it is."""
    text, colon, word = found.groups()
    if word is not None:
        text, colon = '"' + word.replace("\\", "\\\\") + '"', ":"
    return text.replace("~1", "/").replace("~0", "~") + ":" if colon else text


def walk(place: Place, tree: Tree) -> Iterator[Tuple[Place, Tree]]:
    """All places of a tree that stands at a place, this one first, each with its subtree, in the order of places."""
    waiting = [(place, tree)]
    while waiting:
        place, tree = waiting.pop()
        yield place, tree
        if isinstance(tree, dict):
            waiting += [(place / label, below) for label, below in reversed(tree.items())]


def _token(text: str, offset: int) -> "re.Match[str]":
    found = _TOKEN.match(text, offset)
    if not found:
        raise SpellingError(f"syntax at {offset}: no tree is spelled so")
    return found


def _tree_at(text: str, offset: int) -> Tuple[Tree, int]:
    found = _token(text, offset)
    mark = found.group("mark")
    if mark is None:
        return read_value(found.group("quoted") or found.group("word")), found.end()
    if mark != "{":
        raise SpellingError(f"syntax at {found.start('mark')}: {mark} stands where a tree is wanted")
    return _node_at(text, found.end())


def _node_at(text: str, offset: int) -> Tuple[Dict[str, Tree], int]:
    """A node of which the opening brace ends at the offset."""
    rows: List[Tuple[str, Tree]] = []
    found = _token(text, offset)
    if found.group("mark") == "}":
        return {}, found.end()
    while True:
        if found.group("mark"):
            raise SpellingError(f"syntax at {found.start('mark')}: {found.group('mark')} stands where a label is wanted")
        label = read_label(found.group("quoted") or found.group("word"))
        colon = _token(text, found.end())
        if colon.group("mark") != ":":
            raise SpellingError(f"syntax at {colon.start()}: a : is wanted after the label {label}")
        below, offset = _tree_at(text, colon.end())
        rows.append((label, below))
        found = _token(text, offset)
        if found.group("mark") == "}":
            return _as_node(rows), found.end()
        if found.group("mark") != ",":
            raise SpellingError(f"syntax at {found.start()}: a , or a }} is wanted")
        found = _token(text, found.end())


def _as_node(rows: List[Tuple[str, Tree]]) -> Dict[str, Tree]:
    node = dict(sorted(rows, key=lambda it: it[0]))
    if len(node) != len(rows):
        raise SpellingError("a label stands twice among its siblings")
    return node
