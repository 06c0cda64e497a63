"""What the program answers of a store: of each place of T its trace, src, hist, from and mod, and all records and commits.

Much of it needs no storing. A trace that is its parent's with one label more at each place, and one that says that the
place was inserted where it stands, are told by a few words. `src`, `hist` and `from` follow from the trace; of `mod` only
what neither the trace nor the children's answers have is kept. Each of these is compared with what the program answers,
for each place: where one differs there is no page (Disagreement).
"""
import json
import re
from typing import Dict, Iterable, Iterator, List, NamedTuple, Optional, Set, Tuple

import cpdb
from cpdb import Place, Segment, Trace, tool
from cpdb.past import content_of
from cpdb.versions import Course, is_same

from .versions import Versions, undone_on, versions_of

# How many places of sources, and how many characters of their replies, a page has in whole trees. Of a source beyond
# that it has the places that were taken.
MOST_PLACES, MOST_TEXT = 100_000, 8_000_000


class Disagreement(Exception):
    """An answer of the program isn't the one that follows from another answer, or from the operations of its file."""

    def __init__(self, answered: str, expected: str) -> None:
        super().__init__(f"the program answers {answered!r}, where {expected!r} follows from its other answers")


class Row(NamedTuple):
    """A place with what stands there: a value, or `{}` for a node."""

    place: Place
    content: cpdb.Tree

    @property
    def depth(self) -> int:
        return len(self.place.labels)


class Past(NamedTuple):
    """The trace of a place: its first `shared` segments are its parent's with one label more, the others its own."""

    shared: int
    trace: Trace


class Change(NamedTuple):
    """A record, and how many records of the same step below its place say the same of what is below it."""

    record: cpdb.Record
    below: int


class Source(NamedTuple):
    """A source: after how many commits it was loaded, how many places it has, and its rows; not all where it is too big."""

    name: str
    after: int
    places: int
    is_whole: bool
    rows: List[Row]


class Answers(NamedTuple):
    """All that a page says of a store.

    `pasts` has None for a place whose trace is its parent's with one label more. `parts` has by the numbers of places
    the steps that `mod` answers and neither the place's trace nor the `mod` of its children has.
    """

    stats: cpdb.Stats
    commits: List[cpdb.Commit]
    rows: List[Row]
    pasts: List[Optional[Past]]
    parts: Dict[int, List[int]]
    changes: List[Change]
    sources: List[Source]
    versions: Versions


def collect(store: str) -> Answers:
    """Asks the program in one session over a copy of the store."""
    with tool.reading(store) as (copy, session):
        commits, loads = tool.Commits(copy), loads_of(copy)
        stats, tree = session.stats(), session.show()
        rows = rows_of(Place("T"), tree)
        spellings = [str(it.place) for it in rows]
        pasts = pasts_of(session, rows, spellings, stats.tid)
        parts = parts_of(session, rows, spellings, pasts)
        changes = changes_of(session.send("records")[:-1])
        sources = sources_of(session, loads, rows, pasts, changes)
        versions = versions_in(Course(copy, commits), tree, [it.name for it in sources if it.is_whole])
    return Answers(stats, commits.all, rows, pasts, parts, changes, sources, versions)


def versions_in(course: Course, tree: cpdb.Tree, whole: List[str]) -> Versions:
    """The versions of a file, of which the last one has this tree."""
    undone = undone_on(course)
    if not is_same(course.tree(), content_of(tree)):
        raise Disagreement(f"show T: {cpdb.tree_text(tree)[:200]}", f"T after {tool.counted(course.version, 'step')} of the file")
    return versions_of(undone, course.trees, whole)


def loads_of(store: str) -> List[Tuple[str, int]]:
    """The names of the sources, each with how many commits the file has before it."""
    with open(store, "rb") as file:
        bodies = [it.body for it in cpdb.frames(file.read()).frames if it.tag == "E"]
    loads, commits = [], 0
    for body in bodies:
        if body[0] == 2:
            loads.append((body[2: 2 + body[1]].decode("ascii"), commits))
        elif body[0] != 1:
            commits += 1
    return loads


def rows_of(root: Place, tree: cpdb.Tree) -> List[Row]:
    """All places of a tree, each above those below it, siblings in the order of their labels."""
    return [Row(place, {} if isinstance(here, dict) else here) for place, here in cpdb.walk(root, tree)]


# Pasts


def ask(session: cpdb.Session, word: str, spellings: Iterable[str]) -> Iterator[str]:
    """The answers to one query of each of many places."""
    for lines in session.ask_all(f"{word} {it}" for it in spellings):
        if lines[0].startswith("refused"):
            raise cpdb.Refused(lines[0])
        yield lines[0]


def pasts_of(session: cpdb.Session, rows: List[Row], spellings: List[str], tid: int) -> List[Optional[Past]]:
    """The pasts of all places of T, with `src`, `hist` and `from` compared with what they imply."""
    insertions = [cpdb.read_src(it) for it in ask(session, "src", spellings)]
    traces = ask(session, "trace", spellings)
    pasts, expected = [], []
    above: List[Trace] = []
    for row, spelling, insertion, line in zip(rows, spellings, insertions, traces):
        del above[row.depth:]
        past, trace = past_of(row.place, above[-1] if above else None, insertion, tid, line)
        test_shape(trace, tid, line)
        pasts.append(past)
        above.append(trace)
        expected.append(implied(spelling, trace))
        if (insertion is None) != (trace.end.kind != "new") or insertion not in (None, trace.segments[-1].low):
            raise Disagreement(f"src {spelling}: {insertion}", line)
    for word, column in (("hist", 0), ("from", 1)):
        for wanted, line in zip(expected, ask(session, word, spellings)):
            if line != wanted[column]:
                raise Disagreement(line, wanted[column])
    return pasts


def past_of(place: Place, above: Optional[Trace], insertion: Optional[int], tid: int,
            line: str) -> Tuple[Optional[Past], Trace]:
    """The past of a place from the answer to `trace`: as the parent's, or as of an insertion where it stands, or any other."""
    inherited = below(above, place.last) if above else None
    # An end `new` is the root of a source with that name where nothing was inserted.
    if inherited and line == trace_line(place, inherited) and (inherited.end.kind == "new") == (insertion is not None):
        return None, inherited
    if insertion is not None:
        new = Trace([Segment(place, insertion, tid)], cpdb.End("new"))
        if line == trace_line(place, new):
            return Past(0, new), new
    trace = told_apart(cpdb.read_trace(line), insertion)
    if trace == inherited:
        return None, trace
    shared = 0
    if inherited:
        for ours, theirs in zip(trace.segments, inherited.segments):
            if ours != theirs:
                break
            shared += 1
    return Past(min(shared, len(trace.segments) - 1), trace), trace


def told_apart(trace: Trace, insertion: Optional[int]) -> Trace:
    """The trace, where the root of a source that is named `new` or `start` is written as these ends are."""
    kind, low = trace.end.kind, trace.segments[-1].low
    if (kind == "new" and insertion is None) or (kind == "start" and low > 0):
        return trace._replace(end=cpdb.End("copy", Place(kind)))
    return trace


def below(trace: Trace, label: str) -> Trace:
    """The trace with one label more at each of its places."""
    end = trace.end if trace.end.place is None else trace.end._replace(place=trace.end.place / label)
    return Trace([Segment(it.place / label, it.low, it.high) for it in trace.segments], end)


def trace_line(place: Place, trace: Trace) -> str:
    """The answer of `trace`, as the program writes it."""
    stood = " < ".join(f"{it.place}@{it.low}..{it.high}" for it in trace.segments)
    return f"trace {place}: {stood} < {trace.end.place or trace.end.kind}"


def test_shape(trace: Trace, tid: int, line: str) -> None:
    """That a trace begins with the last version, and that each segment ends where the next newer one begins."""
    last = tid
    for segment in trace.segments:
        if segment.high != last or segment.low > last:
            raise Disagreement(line, f"a segment up to version {last}")
        last = segment.low - 1


def implied(spelling: str, trace: Trace) -> Tuple[str, str]:
    """The answers of `hist` and `from` that a trace implies."""
    copies = copies_of(trace)
    hist = f"hist {spelling}: {' '.join(map(str, copies)) or 'none'}"
    newest = trace.segments[0]
    if len(trace.segments) > 1:
        return hist, f"from {spelling}: {trace.segments[1].place} at {newest.low}"
    if trace.end.kind == "start":
        return hist, f"from {spelling}: start"
    return hist, f"from {spelling}: {trace.end.place or trace.end.kind} at {newest.low}"


def copies_of(trace: Trace) -> List[int]:
    """The steps that copied the data, rising."""
    lows = [it.low for it in reversed(trace.segments)]
    return lows if trace.end.kind == "copy" else lows[1:]


def steps_of(trace: Trace) -> List[int]:
    """The steps that inserted or copied the data."""
    lows = [it.low for it in trace.segments]
    return lows[:-1] if trace.end.kind == "start" else lows


# Steps that had a part


def parts_of(session: cpdb.Session, rows: List[Row], spellings: List[str], pasts: List[Optional[Past]]) -> Dict[int, List[int]]:
    """By the numbers of places, the steps of `mod` that neither the trace has nor the `mod` of a child."""
    own = steps_by_place(rows, pasts)
    parts: Dict[int, List[int]] = {}
    unions: List[Set[int]] = [set() for _ in range(cpdb.spelling.DEEPEST_PLACE + 3)]
    backwards = range(len(rows) - 1, -1, -1)
    lines = ask(session, "mod", reversed(spellings))
    for number, line in zip(backwards, lines):
        depth = rows[number].depth
        answered = tids_of(line)
        known = unions[depth + 1].union(own[number])
        if not known <= answered:
            raise Disagreement(line, f"the steps {sorted(known - answered)} too")
        if len(answered) > len(known):
            parts[number] = sorted(answered - known)
        unions[depth + 1] = set()
        unions[depth] |= answered
    return parts


def steps_by_place(rows: List[Row], pasts: List[Optional[Past]]) -> List[List[int]]:
    own: List[List[int]] = []
    above: List[List[int]] = []
    for row, past in zip(rows, pasts):
        del above[row.depth:]
        above.append(steps_of(past.trace) if past else above[-1])
        own.append(above[-1])
    return own


def tids_of(line: str) -> Set[int]:
    """The Tids of an answer of `mod`, of which the place is known."""
    answer = line[line.rindex(": ") + 2:]
    return set() if answer == "none" else set(map(int, answer.split(" ")))


# Changes

_TOKEN = re.compile(r'"(?:[^"\\]|\\.)*"|[^ ]+', re.DOTALL)


class Kept(NamedTuple):
    """A record that was kept, by the raw texts of its places, and its number."""

    tid: str
    op: str
    place: str
    source: str
    number: int


def changes_of(lines: List[str]) -> List[Change]:
    """The records, without those that one of a place above implies: below an insertion insertions, and so on."""
    kept: List[str] = []
    counts: List[int] = []
    above: List[Kept] = []
    for line in lines:
        tid, op, place, source = raw_record(line)
        while above and not (above[-1].tid == tid and place.startswith(above[-1].place + "/")):
            above.pop()
        if above and is_implied(above[-1], op, place, source):
            counts[above[-1].number] += 1
            continue
        above.append(Kept(tid, op, place, source, len(kept)))
        kept.append(line)
        counts.append(0)
    return [Change(cpdb.read_record(line), count) for line, count in zip(kept, counts)]


def raw_record(line: str) -> Tuple[str, str, str, str]:
    """The parts of a record's line, places by their raw texts, the source "" where there is none."""
    parts = line.split(" ") if '"' not in line else list(map(raw_text, _TOKEN.findall(line)))
    return parts[0], parts[1], parts[2], parts[3] if len(parts) > 3 else ""


def raw_text(token: str) -> str:
    return json.loads(token) if token.startswith('"') else token


def is_implied(above: Kept, op: str, place: str, source: str) -> bool:
    """Whether a record below the place of another one says the same of it."""
    if op != above.op or op == "K":
        return False
    return op != "C" or source == above.source + place[len(above.place):]


# Sources


def sources_of(session: cpdb.Session, loads: List[Tuple[str, int]], rows: List[Row], pasts: List[Optional[Past]],
               changes: List[Change]) -> List[Source]:
    """The sources in the order of their loads: whole trees as far as a page has room, of the others what was taken."""
    taken = taken_rows(rows, pasts, changes)
    sources: List[Source] = []
    places_left, text_left = MOST_PLACES, MOST_TEXT
    for name, after in loads:
        line = session.send(f"show {name}")[0]
        count = places_in(line)
        is_whole = count <= places_left and len(line) <= text_left
        if is_whole:
            places_left, text_left = places_left - count, text_left - len(line)
            sources.append(Source(name, after, count, True, rows_of(Place(name), cpdb.read_show(line))))
        else:
            sources.append(Source(name, after, count, False, taken.get(name, [Row(Place(name), {})])))
    return sources


_COLON = re.compile(r'"(?:[^"\\]|\\.)*"|:', re.DOTALL)


def places_in(line: str) -> int:
    """How many places a reply of `show` has: the colon behind its own place, and one behind each label."""
    return sum(1 for it in _COLON.finditer(line) if it.group() == ":")


def taken_rows(rows: List[Row], pasts: List[Optional[Past]], changes: List[Change]) -> Dict[str, List[Row]]:
    """By the names of sources, the places of which the page speaks, with those above them."""
    contents: Dict[Place, cpdb.Tree] = {}
    for place, content in ends_of(rows, pasts):
        contents[place] = content
    for change in changes:
        if change.record.source is not None and change.record.source.name != "T":
            contents.setdefault(change.record.source, {})
    for place in list(contents):
        while place.parent is not None and place.parent not in contents:
            place = place.parent
            contents[place] = {}
    taken: Dict[str, List[Row]] = {}
    for place in sorted(contents):
        taken.setdefault(place.name, []).append(Row(place, contents[place]))
    return taken


def ends_of(rows: List[Row], pasts: List[Optional[Past]]) -> Iterator[Tuple[Place, cpdb.Tree]]:
    """The places of sources from which the data of T comes, each with what stands in T."""
    above: List[Optional[Place]] = []
    for row, past in zip(rows, pasts):
        del above[row.depth:]
        if past:
            above.append(past.trace.end.place)
        else:
            above.append(above[-1] / row.place.last if above[-1] is not None else None)
        if above[-1] is not None:
            yield above[-1], row.content
