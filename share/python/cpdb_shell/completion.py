"""What can be typed next: key words, labels at the place that is typed, names of sources and of files, values to change."""
import csv
import json
import os
from typing import Callable, Dict, List, NamedTuple, Optional, Sequence

from cpdb import Place, SpellingError, label_text, quoted, tree_text
from cpdb.spelling import LONGEST_LABEL

from .own import ANY_PLACE, FORMS, TARGET
from .talk import Talk
from .text import TRIGGER, Token, end_of_tree, tokens_of

_LONGEST_VALUE = 200
_READ_OF_HEADER = 65_536


class Choice(NamedTuple):
    """A token that can stand where one is typed: its text, and what is shown of it in a list."""

    text: str
    shown: str


class Choices(NamedTuple):
    """How many characters of the token are typed, and what it can become."""

    length: int
    choices: List[Choice]


def choices(talk: Talk, before: str, after: str, curators: Sequence[str] = ()) -> Choices:
    """What can stand at the end of the text `before`, in a statement that goes on with the text `after`."""
    tokens = tokens_of(before)
    typed = Token("", len(before), len(before))
    if tokens and tokens[-1].end == len(before) and tokens[-1].text not in ("{", "}", ":", ","):
        typed = tokens.pop()
    found = [Choice(f"@{it} ", f"@{it}") for it in curators if typed.text[:1] == "@" and not tokens and f"@{it}".startswith(typed.text)]
    for slot in _slots(tokens):
        found += [it for it in _of_slot(talk, slot, tokens, typed.text, after) if it not in found]
    return Choices(len(typed.text), _shortened(typed.text, found))


def _slots(tokens: List[Token]) -> List[str]:
    """What may stand after these tokens: the words of forms, each once."""
    found: List[str] = []
    for form in FORMS:
        slot = _slot(form.words.split(), tokens)
        if slot and slot not in found:
            found.append(slot)
    return found


def _slot(words: List[str], tokens: List[Token]) -> Optional[str]:
    """The word of a form that comes after these tokens, or None where they aren't its first ones."""
    at = 0
    for word in words:
        if at == len(tokens):
            return word
        if word == "TREE":
            end = end_of_tree(tokens, at)
            if end is None:
                return "VALUE" if tokens[-1].text == ":" else None
            at = end
        elif word.isupper() or word == tokens[at].text:
            at += 1
        else:
            return None
    return None


def _of_slot(talk: Talk, slot: str, tokens: List[Token], typed: str, after: str) -> List[Choice]:
    """What can stand at a word of a form."""
    if not slot.isupper():
        return [Choice(f"{slot} ", slot)] if slot.startswith(typed) and slot.strip("{}:,") else []
    if slot in (TARGET, ANY_PLACE):
        names = ["T"] if slot == TARGET else ["T", *talk.sources.names()]
        return _places(talk, names, typed)
    if slot in ("TREE", "VALUE"):
        return _values(talk, tokens, typed)
    by_slot: Dict[str, Callable[[], List[Choice]]] = {
        "LABEL": lambda: _labels(talk, tokens, typed, after),
        "FILE": lambda: _files(typed),
        "WORD": lambda: _beginning(sorted({it.words.split()[0] for it in FORMS}), typed),
    }
    return by_slot[slot]() if slot in by_slot else []


def _beginning(words: List[str], typed: str) -> List[Choice]:
    return [Choice(it, it) for it in words if it.startswith(typed)]


def _raw_of(typed: str) -> Optional[str]:
    """The text of a token that may lack its closing quotation mark; None where it has an escape that isn't whole."""
    if not typed.startswith('"'):
        return typed
    try:
        return str(json.loads(typed if len(typed) > 1 and typed.endswith('"') else f'{typed}"'))
    except ValueError:
        return None


def _spelled(raw: str) -> str:
    return quoted(raw) if TRIGGER.search(raw) else raw


def _place_of(raw: str) -> Optional[Place]:
    try:
        return Place.read(_spelled(raw))
    except SpellingError:
        return None


def _places(talk: Talk, names: List[str], typed: str) -> List[Choice]:
    """The places with these names that begin so, as far as the next label; where only the one that is typed does, those below it."""
    raw = _raw_of(typed)
    if raw is None:
        return []
    above, slash, _ = raw.rpartition("/")
    place = _place_of(above) if slash else None
    if slash and (place is None or place.name not in names):
        return []
    found = [it for it in (_below(talk, place) if place else names) if it.startswith(raw)]
    only = _place_of(raw) if found == [raw] else None
    if only:
        found = _below(talk, only) or found
    return [Choice(_spelled(it), it.rpartition("/")[2] or '""') for it in found]


def _below(talk: Talk, place: Place) -> List[str]:
    """The raw texts of the places right below one, in order."""
    tree = talk.mirror.within_whole(place)
    labels = sorted(tree, key=str.encode) if isinstance(tree, dict) else []
    above = _raw_of(str(place))
    return [f"{above}/{_escaped(it)}" for it in labels]


def _escaped(label: str) -> str:
    return _raw_of(label_text(label)) or "" if "~" in label or "/" in label else label


def _values(talk: Talk, tokens: List[Token], typed: str) -> List[Choice]:
    """Words that are values, and of `set` what stands at the place now, alone where nothing is typed yet."""
    found = _beginning(["null", "true", "false"], typed)
    if len(tokens) == 2 and tokens[0].text == "set":
        place = _place_of(_raw_of(tokens[1].text) or "")
        tree = talk.mirror.at(place) if place else None
        now = tree_text(tree) if isinstance(tree, (int, str)) else ""
        if now and now.startswith(typed) and len(now) <= _LONGEST_VALUE:
            found = [Choice(now, now), *(found if typed else [])]
    return found


def _labels(talk: Talk, tokens: List[Token], typed: str, after: str) -> List[Choice]:
    """Labels for `del`, where its place stands after the cursor already, and headers of the file of a `load`."""
    if tokens[0].text == "load":
        return _labels_beginning(_headers(tokens[3].text), typed)
    rest = tokens_of(after)
    if tokens[0].text != "del" or len(rest) < 2 or rest[0].text != "from":
        return []
    place = _place_of(_raw_of(rest[1].text) or "")
    tree: object = talk.mirror.within_whole(place) if place else None
    return _labels_beginning(sorted(tree, key=str.encode), typed) if isinstance(tree, dict) else []


def _labels_beginning(labels: List[str], typed: str) -> List[Choice]:
    """The labels of which the spelling begins so, quotation marks apart."""
    raw = _raw_of(typed)
    texts = [label_text(it) for it in labels if len(it.encode("utf-8")) <= LONGEST_LABEL]
    return [Choice(it, it) for it in texts if raw is not None and (_raw_of(it) or "").startswith(raw)]


def _headers(file: str) -> List[str]:
    try:
        with open(_raw_of(file) or "", encoding="utf-8-sig", newline="") as table:
            return next(csv.reader([table.readline(_READ_OF_HEADER)]), [])
    except (OSError, UnicodeError, csv.Error):
        return []


def _files(typed: str) -> List[Choice]:
    """Files whose names begin so, and folders with a `/` behind, without the quotation mark that closes them."""
    raw = _raw_of(typed or '"')
    if raw is None or (typed and not typed.startswith('"')):
        return []
    folder, begun = os.path.split(raw)
    try:
        names = sorted(it for it in os.listdir(folder or ".") if it.startswith(begun) and (begun or it[0] != "."))
    except OSError:
        return []
    found = []
    for name in filter(_is_text, names):
        path = os.path.join(folder, name)
        is_folder = os.path.isdir(path)
        found.append(Choice(quoted(f"{path}/")[:-1] if is_folder else quoted(path), f"{name}/" if is_folder else name))
    return found


def _is_text(name: str) -> bool:
    """Whether the bytes of a name are UTF-8, so that a statement can have it."""
    return not any("\ud800" <= it <= "\udfff" for it in name)


def _shortened(typed: str, found: List[Choice]) -> List[Choice]:
    """Where some of the choices take quotation marks and others don't, their common beginning, if it is longer than what is typed."""
    marked = [it for it in found if it.text.startswith('"')]
    if typed.startswith('"') or not marked or len(marked) == len(found):
        return found
    common = os.path.commonprefix([_raw_of(it.text) or "" for it in found])
    if len(common) > len(typed) and not TRIGGER.search(common):
        return [Choice(common, common)]
    return found
