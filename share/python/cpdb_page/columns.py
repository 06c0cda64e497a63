"""The answers as the page's script reads them: columns of numbers and texts.

A place is a number. First come the places of T and then those of each source, each above those below it; then those that
stand nowhere any more, each with the number of its parent. share/page/store.js reads what this module writes.
"""
from typing import Any, Dict, List, NamedTuple, Optional, Tuple

import cpdb
from cpdb import Place

from .answers import Answers, Change, Past, Row
from .versions import Branch, Kept, Leaf, Versions

FORM = 1
# The ends of a past that are no place.
NEW, START = -1, -2


class Numbers:
    """The numbers of places and of labels."""

    def __init__(self) -> None:
        self.labels: Dict[str, int] = {}
        self.places: Dict[Place, int] = {}
        self.others: List[Tuple[int, int]] = []

    def label(self, label: str) -> int:
        return self.labels.setdefault(label, len(self.labels))

    def stand(self, rows: List[Row]) -> None:
        for row in rows:
            self.places[row.place] = len(self.places)

    def place(self, place: Place) -> int:
        """The number of a place; one that stands nowhere gets the next one, after those above it."""
        found = self.places.get(place)
        if found is not None:
            return found
        assert place.parent is not None, place
        above = self.place(place.parent)
        self.others.append((above, self.label(place.last)))
        self.places[place] = len(self.places)
        return self.places[place]


def columns_of(answers: Answers, name: str, moment: int) -> Dict[str, Any]:
    """The columns of a page of a store with this name, made at this moment."""
    numbers = Numbers()
    rows = list(answers.rows)
    for source in answers.sources:
        rows += source.rows
    numbers.stand(rows)
    standing = columns_of_rows(rows, numbers)
    pasts = [number for past in answers.pasts for number in past_numbers(past, numbers)]
    steps = columns_of_changes(answers.changes, numbers)
    versions = columns_of_versions(answers.versions, numbers)
    return {
        "form": FORM, "name": name, "made": moment, "stats": answers.stats._asdict(),
        "roots": [{"name": "T", "rows": len(answers.rows), "places": len(answers.rows), "whole": True, "after": 0}] + [
            {"name": it.name, "rows": len(it.rows), "places": it.places, "whole": it.is_whole, "after": it.after}
            for it in answers.sources],
        "standing": standing, "pasts": pasts,
        "parts": [[place, *steps_] for place, steps_ in sorted(answers.parts.items())],
        "commits": columns_of_commits(answers.commits), "steps": steps, "versions": versions,
        "others": {"parents": [it[0] for it in numbers.others], "labels": [it[1] for it in numbers.others]},
        "labels": list(numbers.labels),
    }


def columns_of_rows(rows: List[Row], numbers: Numbers) -> Dict[str, Any]:
    """The kinds of contents as one letter each, and the texts of those that have one, in order."""
    kinds, texts = [], []
    for row in rows:
        kind, text = letter_of(row.content)
        kinds.append(kind)
        if text is not None:
            texts.append(text)
    return {"depths": [it.depth for it in rows],
            "labels": [numbers.label(it.place.last) if it.depth else -1 for it in rows],
            "kinds": "".join(kinds), "texts": texts}


def letter_of(content: cpdb.Tree) -> Tuple[str, Optional[str]]:
    if isinstance(content, dict):
        return "n", None
    if isinstance(content, str):
        return "s", content
    if content is None or isinstance(content, bool):
        return {None: "0", True: "t", False: "f"}[content], None
    return "i", str(content)


def past_numbers(past: Optional[Past], numbers: Numbers) -> List[int]:
    """0 for a past as the parent's. Else 1 and the number of shared segments; how many others there are; of each the place,
    but for the first of all, which is the place itself, and its first version; the end."""
    if past is None:
        return [0]
    own = past.trace.segments[past.shared:]
    found = [1 + past.shared, len(own)]
    for number, segment in enumerate(own, past.shared):
        found += [numbers.place(segment.place), segment.low] if number else [segment.low]
    end = past.trace.end
    found.append({"new": NEW, "start": START}[end.kind] if end.place is None else numbers.place(end.place))
    return found


def columns_of_changes(changes: List[Change], numbers: Numbers) -> Dict[str, Any]:
    records = [it.record for it in changes]
    return {"tids": [it.tid for it in records], "ops": "".join(it.op for it in records),
            "places": [numbers.place(it.place) for it in records],
            "sources": [numbers.place(it.source) for it in records if it.source is not None],
            "below": [it.below for it in changes]}


def columns_of_versions(versions: Versions, numbers: Numbers) -> Dict[str, Any]:
    """Of each version after the oldest how many places its step changed; of these their numbers, and 0 or one more than the
    number of what stood there before. The contents have the letters of rows, or `p` where they stand at a place; `below` has of
    a node how many children it has, then each with its label and its content, and of a `p` the number of the place."""
    kinds, texts, below = [], [], []
    for kept in versions.contents:
        kind, text, numbers_below = kept_columns(kept, numbers)
        kinds.append(kind)
        below += numbers_below
        if text is not None:
            texts.append(text)
    changes = [it for step in versions.steps for it in step]
    return {"oldest": versions.oldest, "counts": [len(it) for it in versions.steps],
            "places": [numbers.place(it[0]) for it in changes], "before": [0 if it[1] is None else it[1] + 1 for it in changes],
            "kinds": "".join(kinds), "texts": texts, "below": below}


def kept_columns(kept: Kept, numbers: Numbers) -> Tuple[str, Optional[str], List[int]]:
    """The letter of a content, its text where it has one, and its numbers."""
    if isinstance(kept, Place):
        return "p", None, [numbers.place(kept)]
    if isinstance(kept, Leaf):
        return (*letter_of(kept.value), [])
    assert isinstance(kept, Branch)
    return "n", None, [len(kept.children), *(it for label, number in kept.children for it in (numbers.label(label), number))]


def columns_of_commits(commits: List[cpdb.Commit]) -> Dict[str, Any]:
    names: Dict[str, int] = {}
    curators = [names.setdefault(it.curator, len(names)) for it in commits]
    return {"first": [it.first for it in commits], "last": [it.last for it in commits], "curators": curators,
            "names": list(names), "moments": [str(it.moment) for it in commits],
            "operations": [it.operations for it in commits]}
