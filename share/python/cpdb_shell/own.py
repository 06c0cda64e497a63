"""The statements that the shell adds to those of the program, and the forms of all."""
from typing import Dict, List, NamedTuple, Optional, Union

from cpdb import Place, Tree, label_text, quoted, read_value, tree_text

from .mirror import MISSING
from .reading import Fault, Reader
from .talk import Talk
from .text import BLANK, Token, end_of_tree, tokens_of

REASONS = Place("T", ("reasons",))


class Form(NamedTuple):
    """A form of a statement: its words, those in capitals to be filled in, and what it is for."""

    words: str
    about: str


FORMS = [
    Form("ins { LABEL : TREE } into PLACE", "adds a tree at a label below a place"),
    Form("del LABEL from PLACE", "deletes what stands at a label below a place"),
    Form("copy ORIGIN into PLACE", "replaces a place by a copy, of T or a source"),
    Form("set PLACE TREE", "replaces what stands there: a del and an ins"),
    Form("add PLACE TREE", "inserts there, and makes what lacks above"),
    Form("commit", "keeps what the open transaction holds"),
    Form("commit -m TEXT", "the same, with a reason under T/reasons"),
    Form("abort", "gives the open transaction up"),
    Form("again", "holds once more what was given up or failed"),
    Form("show", "the tree T, as the transaction has it"),
    Form("show ORIGIN", "what stands at a place of T or a source"),
    Form("src PLACE", "the step that inserted the data of a place"),
    Form("hist PLACE", "the steps that copied it"),
    Form("mod PLACE", "the steps with a part in it and in what is below"),
    Form("trace PLACE", "where it stood, newest first, by versions"),
    Form("from PLACE", "where it came from at last"),
    Form("records", "what each step has done"),
    Form("records NUMBER", "what one step has done"),
    Form("stats", "the kind of the store, and its sizes"),
    Form("load NAME json FILE", "loads a source; FILE and TEXT are in quotes"),
    Form("load NAME csv FILE", "loads a table, its rows by their numbers"),
    Form("load NAME csv FILE by LABEL", "loads a table, its rows by that column"),
    Form("@NAME", "goes on as that curator, if yours is a name"),
    Form("@NAME STATEMENT", "one statement of that curator"),
    Form("help", "this list"),
    Form("help WORD", "the forms that begin with a word"),
    Form("quit", "leaves the shell, as Ctrl-D does"),
]
TARGET, ANY_PLACE = "PLACE", "ORIGIN"


def forms_of(word: str) -> List[Form]:
    """The forms that begin with this word."""
    return [it for it in FORMS if it.words.split()[0] == word]


class Statement(NamedTuple):
    """A statement of the program, as it was typed."""

    text: str


class Put(NamedTuple):
    """`set` or `add`."""

    word: str
    place: Place
    tree: str


class Reason(NamedTuple):
    """`commit -m`."""

    text: str


class Word(NamedTuple):
    """A word for the shell itself, and what was typed after it."""

    word: str
    argument: str


class Turn(NamedTuple):
    """A curator's name alone: that one speaks from now on."""

    name: str


Command = Union[Statement, Put, Reason, Word, Turn]


class Mistyped(Exception):
    """A text that can't be read."""

    def __init__(self, fault: Fault) -> None:
        super().__init__(fault.what)
        self.fault = fault


class Refusal(Exception):
    """A statement of the shell that can't be carried out; nothing was sent."""


def read_command(reader: Reader, text: str) -> Command:
    """What was typed, one statement; Mistyped where it can't be read."""
    tokens = tokens_of(text)
    word = tokens[0].text
    if word in ("set", "add"):
        return _read_put(reader, text, tokens)
    if word == "commit" and len(tokens) > 1 and tokens[1].text == "-m":
        return _read_reason(reader, text, tokens)
    if word in ("help", "again", "quit"):
        return _read_word(text, tokens)
    _raise(reader.fault(text))
    return Statement(text.strip(BLANK))


def _raise(fault: Optional[Fault], offset: int = 0) -> None:
    """Raises Mistyped for a fault that was found in the part of the text that begins at this offset."""
    if fault:
        raise Mistyped(fault if fault.at is None else Fault(fault.what, fault.at + offset))


def _wanted(text: str, tokens: List[Token], index: int) -> Token:
    """The token with this index, or the fault of a text that ends too early."""
    if index >= len(tokens):
        raise Mistyped(Fault("syntax", len(text.rstrip(BLANK))))
    return tokens[index]


def _ends(tokens: List[Token], index: int) -> None:
    if index < len(tokens):
        raise Mistyped(Fault("syntax", tokens[index].start))


def _read_put(reader: Reader, text: str, tokens: List[Token]) -> Put:
    place = _wanted(text, tokens, 1)
    _raise(reader.fault_within("show ", place.text, ""), place.start)
    first = _wanted(text, tokens, 2)
    end = end_of_tree(tokens, 2) or len(tokens)
    tree = text[first.start:tokens[end - 1].end]
    _raise(reader.fault_within("ins {tree : ", tree, "} into T"), first.start)
    _ends(tokens, end)
    return Put(tokens[0].text, Place.read(place.text), tree)


def _read_reason(reader: Reader, text: str, tokens: List[Token]) -> Reason:
    token = _wanted(text, tokens, 2)
    if not token.text.startswith('"'):
        raise Mistyped(Fault("bad value", token.start))
    _raise(reader.fault_within("ins {tree : ", token.text, "} into T"), token.start)
    _ends(tokens, 3)
    return Reason(str(read_value(token.text)))


def _read_word(text: str, tokens: List[Token]) -> Word:
    word = tokens[0].text
    if word != "help":
        _ends(tokens, 1)
        return Word(word, "")
    _ends(tokens, 2)
    if len(tokens) > 1 and not forms_of(tokens[1].text):
        raise Mistyped(Fault("syntax", tokens[1].start))
    return Word(word, tokens[1].text if len(tokens) > 1 else "")


def _insertion(label: str, tree: str, place: Place) -> str:
    return f"ins {{{label_text(label)} : {tree}}} into {place}"


def statements_for(put: Put, talk: Talk) -> List[str]:
    """The operations that carry out `set` or `add`; Refusal where they would be refused."""
    word, place = put.word, put.place
    if talk.transaction.failed_at is not None:
        raise Refusal(f"refused {word}: transaction failed at {talk.transaction.failed_at}")
    if place.name != "T":
        raise Refusal(f"refused {word}: read only {place}")
    if place.parent is None:
        raise Refusal(f"refused {word}: T is the root")
    return _to_set(put, place.parent, talk) if word == "set" else _to_add(put, talk)


def _to_set(put: Put, above: Place, talk: Talk) -> List[str]:
    if talk.mirror.at(put.place) is MISSING:
        raise Refusal(f"refused set: no place {put.place}")
    return [f"del {label_text(put.place.last)} from {above}", _insertion(put.place.last, put.tree, above)]


def _to_add(put: Put, talk: Talk) -> List[str]:
    """One insertion below the lowest place that is there."""
    if talk.mirror.at(put.place) is not MISSING:
        raise Refusal(f"refused add: {put.place} is there")
    tree, place = put.tree, put.place
    above = place.parent or place
    while talk.mirror.at(above) is MISSING and above.parent is not None:
        tree, place = f"{{{label_text(place.last)} : {tree}}}", above
        above = above.parent
    if not isinstance(talk.mirror.at(above), dict):
        raise Refusal(f"refused add: not a node {above}")
    return [_insertion(place.last, tree, above)]


def statement_for_reason(reason: Reason, talk: Talk) -> str:
    """The insertion of a reason, as the last operation of the transaction; Refusal where it would be refused.

    Its label is the Tid that it is about to get, so that no two reasons have the same. Who reads the reasons finds the
    commit by `src`, and the label tells nothing more.
    """
    there, place = talk.mirror.at(REASONS), REASONS
    if there is MISSING:
        there, place = talk.mirror.at(Place("T")), Place("T")
    if not isinstance(there, dict):
        raise Refusal(f"refused commit: not a node {place}")
    if place == REASONS:
        return _insertion(_label_for_reason(there, talk), quoted(reason.text), REASONS)
    return _insertion(REASONS.last, tree_text({_label_for_reason({}, talk): reason.text}), place)


def _label_for_reason(there: Dict[str, Tree], talk: Talk) -> str:
    stats = talk.stats()
    tid = stats.tid + (1 if stats.kind in ("t", "ht") else len(talk.transaction.held) + 1)
    label, number = str(tid), 1
    while label in there:
        number += 1
        label = f"{tid}-{number}"
    return label
