#!/usr/bin/env python3
"""A model of checkpoints, of its own: the slots of a header, the frame of a checkpoint, and what a file with one stands for.

A checkpoint has T's tree, pages with the rows of the records since the one before, and a directory at its end. Here it is written
from the history alone, which is replayed over trees whose places carry their past; the rows of its runs come from the records.
What a slot names is taken apart as it stands, and a file is right where what it says is what the replay says.

    model/checkpoints.py            tests itself, and prints the bytes of an empty store with a checkpoint
    model/checkpoints.py FILE ..    tells of each file what it names, and whether it opens and is right
"""

import sys

import pages
import storage
import verify
from pages import big, number_in

FIRST_FRAME, SLOTS, SLOT, HEAD = 192, (64, 128), 64, 10
ENTRY, CHECKPOINT = 0x45, 0x50
SOURCES_MAX, RUNS_MAX = 32, 8
ORDERS = range(3)


class NoStore(Exception):
    """The file doesn't open: its slot at this offset, or its frame there, isn't as it has to be."""


class Wrong(Exception):
    """The file opens, but isn't what the replay of its frames says."""


# ---- slots


def slot_bytes(slot):
    number, at = slot
    return b"\1" + big(number, 8) + big(at, 8) + bytes(47)


def slot_in(data, place):
    """The number and the offset of the slot at this place, if it is open."""
    slot = data[place : place + SLOT]
    return (number_in(slot[1:9]), number_in(slot[9:17])) if slot[:1] == b"\1" else None


def live_place(data):
    """Where the live slot stands: of the open ones that with the greatest number."""
    return max((place for place in SLOTS if slot_in(data, place)), key=lambda place: slot_in(data, place)[0], default=None)


def with_live(data, at):
    """The file in which the slot that isn't live names the checkpoint at this offset, and is live."""
    place = live_place(data)
    number = slot_in(data, place)[0] if place else 0
    spare = SLOTS[1] if place == SLOTS[0] else SLOTS[0]
    return data[:spare] + slot_bytes((number + 1, at)) + data[spare + SLOT :]


# ---- what a slot names


def framed(tag, body):
    return bytes([1, tag]) + big(len(body), 8) + body


def frame_at(data, at):
    """The tag and the body of the frame that stands whole at this offset with an open gate."""
    head, size = data[at : at + HEAD], number_in(data[at + 2 : at + HEAD])
    body = data[at + HEAD : at + HEAD + size]
    return (head[1], body) if len(head) == HEAD and head[0] == 1 and len(body) == size else None


def directory_of(body):
    """The directory at the end of a checkpoint's body."""
    size = number_in(body[-4:])
    fits = len(body) >= 4 + size
    return pages.directory_in(body[-4 - size : -4]) if fits else None


def tree_in(data, name, at, size):
    """The rows of the tree that these bytes spell."""
    reader = storage.Bytes(data[at : at + size])
    try:
        tree = reader.whole_tree(len(name))
    except (storage.Wrong, storage.More):
        return None
    return verify.rows_in(tree) if reader.at == size else None


def lie(end, ranges):
    return all(FIRST_FRAME <= at and at + size <= end for at, size in ranges)


def named(data, slot):
    """The directory that the slot names, and the trees by their names."""
    number, at = slot
    frame = frame_at(data, at)
    if not (FIRST_FRAME <= at and 1 <= number <= at and frame and frame[0] == CHECKPOINT):
        return None
    directory, end = directory_of(frame[1]), at + HEAD + len(frame[1])
    if not directory:
        return None
    _, numbers, trees, runs = directory
    names = [name for name, _, _ in trees]
    fits = all(number <= at for number in numbers) and 1 <= len(trees) <= 1 + SOURCES_MAX
    fits = fits and names[0] == b"T" and len(set(names)) == len(names)
    fits = fits and lie(end, [it[1:] for it in trees] + [(at, pages.PAGE * count) for _, at, count in runs])
    fits = fits and all([order for order, _, _ in runs].count(order) <= RUNS_MAX for order in ORDERS)
    if not fits:
        return None
    found = {name.decode(): tree_in(data, name, at, size) for name, at, size in trees}
    return (directory, found) if None not in found.values() else None


# ---- what a file stands for


def version_of(data):
    """The version of a file that begins with a header, whatever its slots say."""
    text = storage.header_text(data)
    if not text.startswith("version"):
        raise NoStore(0)
    return int(text.split(",")[0].split()[1])


def closed_frames(data):
    """The frames from the first on, and the closed gate after them."""
    frames, end, is_closed = storage.frames_in(data)
    if not is_closed:
        raise NoStore(end)
    return frames, end


def after_frame(store, version, frame):
    at, tag, body = frame
    if tag == CHECKPOINT:
        if store is None:
            raise NoStore(at)
        return store
    if storage.stop_of(body) is not None:
        raise NoStore(at)
    try:
        return verify.with_entry(store, at, version, storage.entry_in(body)[0])
    except verify.NoStore as cause:
        raise NoStore(cause.args[0]) from cause


def replayed(data, until=None):
    """The store that the frames tell, those before an offset alone where one is given."""
    version, store = version_of(data), None
    for frame in closed_frames(data)[0]:
        if until is None or frame[0] < until:
            store = after_frame(store, version, frame)
    if store is None:
        raise NoStore(FIRST_FRAME)
    return store


def contents_of(tree):
    return {path: content for path, (content, _) in tree.items()}


def state_of(store):
    """What a directory says of a store: its kind and numbers, its trees."""
    numbers = store.tid, len(store.log), len(store.records)
    return store.kind, numbers, {"T": contents_of(store.tree), **store.sources}


def record_of(record):
    """A record as pages have it: places are their names and labels in bytes."""
    tid, letter, path, *source = record
    place = (b"T", *(label.encode() for label in path))
    return tid, letter.encode(), place, tuple(it.encode() for it in source[0]) if source else None


def rows_of(records, order):
    """The rows of records in an order, each once."""
    records = list(map(record_of, records))
    if order < 2:
        return sorted(pages.row_by_step(it) if order else pages.row_by_place(it) for it in records)
    gone = {(place, tid) for tid, letter, place, _ in records if letter == b"D"}
    losers = {(place[:-1], tid) for place, tid in gone if (place[:-1], tid) not in gone}
    return sorted(map(pages.row_by_loser, losers))


def check_checkpoint(data, slot):
    """Whether the slot names a frame of the walk, whose checkpoint has the state of those before it."""
    directory, trees = named(data, slot)
    kind, numbers, _, runs = directory
    if slot[1] not in [at for at, tag, _ in closed_frames(data)[0] if tag == CHECKPOINT]:
        raise Wrong("the slot names no frame of the walk")
    store = replayed(data, slot[1])
    if state_of(store) != (kind, numbers, trees) or list(state_of(store)[2]) != list(trees):
        raise Wrong("the numbers or the trees are others")
    for order in ORDERS:
        if pages.rows_of_order(data, runs, order) != rows_of(store.records, order):
            raise Wrong(f"the rows of order {order} are others")


def opened(data):
    """The store that a file opens as: its kind, the last Tid, the number of transactions, and its trees."""
    version, place = version_of(data), live_place(data)
    if not place:
        kind, numbers, trees = state_of(replayed(data))
        return kind, numbers[:2], trees
    names = named(data, slot_in(data, place))
    if not names:
        raise NoStore(place)
    (kind, numbers, _, _), trees = names
    store = verify.FileStore(kind, trees["T"])
    store.sources.update((name, tree) for name, tree in trees.items() if name != "T")
    store.tid, store.log = numbers[0], [None] * numbers[1]
    at = slot_in(data, place)[1]
    tail = data[:FIRST_FRAME] + data[at:]
    frames, end, is_closed = storage.frames_in(tail)
    for gate, tag, body in frames:
        store = after_frame(store, version, (gate - FIRST_FRAME + at, tag, body))
    if not is_closed:
        raise NoStore(end - FIRST_FRAME + at)
    kind, numbers, trees = state_of(store)
    return kind, numbers[:2], trees


def check_store(data):
    """Whether the file stands for the history that its frames tell."""
    kind, numbers, trees = opened(data)
    store = replayed(data)
    if store.difference:
        raise Wrong("the records are others")
    if live_place(data):
        check_checkpoint(data, slot_in(data, live_place(data)))
    if (kind, numbers, trees) != (store.kind, state_of(store)[1][:2], state_of(store)[2]):
        raise Wrong("the opening leads elsewhere")


def verdict(data):
    try:
        check_store(data)
        return "stands for its history"
    except NoStore as cause:
        return f"not a store, at {cause.args[0]}"
    except Wrong as cause:
        return f"opens, but {cause}"


# ---- making a checkpoint


def source_ranges(data):
    """The name, the offset and the length of the tree of each source, in its frame."""
    ranges = []
    for at, tag, body in closed_frames(data)[0]:
        if tag == ENTRY and body[0] == 2:
            name = body[2 : 2 + body[1]]
            head = 2 + len(name)
            ranges.append((name, at + HEAD + head, len(body) - head))
    return ranges


def new_run(data, old, order, extra):
    """The runs of an order that stay, the rows of the one that is added, if one is."""
    runs = [run for run in old if run[0] == order]
    if not extra or len(runs) < RUNS_MAX:
        return runs, extra
    return [], pages.merged(extra, data, runs)


def checkpointed(data):
    """The file with a checkpoint after its last frame, which is live."""
    store, end = replayed(data), closed_frames(data)[1]
    kind, numbers, trees = state_of(store)
    slot = slot_in(data, live_place(data)) if live_place(data) else None
    (_, old_numbers, _, old_runs), _ = named(data, slot) if slot else ((kind, (0, 0, 0), [], []), {})
    body = verify.tree_bytes(trees["T"])
    ranges = [(b"T", end + HEAD, len(body))] + source_ranges(data)
    runs, tail = [], store.records[old_numbers[2] :]
    for order in ORDERS:
        stay, rows = new_run(data, old_runs, order, rows_of(tail, order))
        written = pages.run_bytes(rows)
        runs += stay + ([(order, end + HEAD + len(body), len(written) // pages.PAGE)] if rows else [])
        body += written
    directory = pages.directory_bytes((kind, numbers, ranges, runs))
    frame = framed(CHECKPOINT, body + directory + big(len(directory), 4))
    return with_live(data[:end] + frame + b"\0" + data[end + len(frame) + 1 :], end)


# ---- files to test


def made(kind, rows):
    """A new store that starts from this tree."""
    return storage.HEADER + storage.framed(verify.start_body(kind, rows)) + b"\0"


def added(data, body):
    end = closed_frames(data)[1]
    return data[:end] + storage.framed(body) + b"\0"


def committed(data, ops):
    """The file with a commit of these operations, by the curator without a name at the moment 0."""
    store = replayed(data)
    store.added = []
    store.commit(ops, "", 0)
    return added(data, store.added[0])


NODE = {(): "node"}
EMPTY = made("n", NODE)
EMPTY_CHECKPOINTED = 276


def ins(label, rows=None, into=()):
    return "ins", ("T", *into), label, rows or NODE


def delete(label, path=()):
    return "del", ("T", *path), label


def grown(kind, rounds):
    """A store with a source and, after each round of commits, a checkpoint."""
    data = added(made(kind, NODE), verify.load_body("S", {(): "node", ("x",): "1"}))
    for number in range(rounds):
        a, b = f"a{number}", f"b{number}"
        data = committed(data, [ins(a), ins("c", None, (a,)), ins("d", {(): "7"}, (a, "c"))])
        data = committed(data, [("copy", ("T", a), ("S", "x")), ins(b), ins("c", None, (b,))])
        data = committed(data, [delete("c", (b,))] if number % 2 else [delete(b)])
        data = checkpointed(data)
    return data


# ---- tests


def check(fact, text):
    if not fact:
        raise SystemExit(f"model/checkpoints.py: {text}")


def check_empty():
    """The facts that are known of the file of an empty store with a checkpoint."""
    data = checkpointed(EMPTY)
    check(len(EMPTY) == 210 and len(data) == EMPTY_CHECKPOINTED, "an empty store has another size")
    check(data[209] == 1 and data[210] == CHECKPOINT and data[-1] == 0, "the frame stands elsewhere")
    check(data[224:271] == pages.directory_bytes(("n", (0, 0, 0), [(b"T", 219, 5)], [])), "the directory stands elsewhere")
    check(data[64:128] == slot_bytes((1, 209)) and not any(data[128:192]), "the slots are others")
    check(verdict(data) == "stands for its history", "an empty store isn't right")
    wrong = data[:240] + b"\1" + data[241:]
    check(named(wrong, (1, 209))[0][1] == (0, 1, 0) and verdict(wrong).startswith("opens"), "byte 240 isn't that of the transactions")


def check_grown(kind):
    """Up to 10 checkpoints: runs are added until there are 8 of an order, and the ninth merges them."""
    for rounds in (1, 2, 8, 9, 10):
        data = grown(kind, rounds)
        runs = named(data, slot_in(data, live_place(data)))[0][3]
        count = [[order for order, _, _ in runs].count(order) for order in ORDERS]
        check(count == [rounds if rounds <= RUNS_MAX else rounds - RUNS_MAX] * 3, f"{rounds} rounds leave {count} runs")
        check(verdict(data) == "stands for its history", f"{kind}, {rounds} rounds: {verdict(data)}")
        check(verdict(committed(data, [ins("z")])) == "stands for its history", f"{kind}: a commit after {rounds} rounds")
        both = checkpointed(data)
        check(live_place(both) != live_place(data), "the live slot was written over")
        check(verdict(both) == "stands for its history", f"{kind}: a checkpoint without rows after {rounds} rounds")


def changed_directory(data, change):
    """The file whose checkpoint, at the end of its frames, has a directory that is changed."""
    slot = slot_in(data, live_place(data))
    body, directory = frame_at(data, slot[1])[1], named(data, slot)[0]
    front = body[: len(body) - 4 - len(pages.directory_bytes(directory))]
    kind, numbers, trees, runs = change(*directory)
    new = pages.directory_bytes((kind, numbers, trees, runs))
    return data[: slot[1]] + framed(CHECKPOINT, front + new + big(len(new), 4)) + b"\0"


def check_refused():
    """What a slot may not name, and how it is told."""
    data = grown("t", 1)
    place, slot = live_place(data), slot_in(data, live_place(data))
    at = slot[1]
    end = at + HEAD + len(frame_at(data, at)[1])

    def slotted(number, offset):
        return data[:place] + slot_bytes((number, offset)) + data[place + SLOT :]

    ninth = [(0, 192 + n, 1) for n in range(RUNS_MAX + 1)]
    wrong = {
        "a slot without a number": slotted(0, at),
        "a number over the offset": slotted(at + 1, at),
        "a frame of an entry": slotted(9, FIRST_FRAME),
        "an offset in the header": slotted(9, 100),
        "an offset after the file": slotted(9, len(data)),
        "a Tid over the offset": changed_directory(data, lambda k, n, t, r: (k, (at + 1, *n[1:]), t, r)),
        "nine runs of an order": changed_directory(data, lambda k, n, t, r: (k, n, t, ninth)),
        "a run before the frames": changed_directory(data, lambda k, n, t, r: (k, n, t, [(0, 191, 1)])),
        "a run past the frame": changed_directory(data, lambda k, n, t, r: (k, n, t, [(0, end, 1)])),
        "a tree before the frames": changed_directory(data, lambda k, n, t, r: (k, n, [t[0], (b"S", 191, 10)], r)),
        "T second": changed_directory(data, lambda k, n, t, r: (k, n, t[::-1], r)),
        "two trees of one name": changed_directory(data, lambda k, n, t, r: (k, n, t + t[1:], r)),
        "no tree": changed_directory(data, lambda k, n, t, r: (k, n, [], r)),
        "runs out of order": changed_directory(data, lambda k, n, t, r: (k, n, t, r[::-1])),
    }
    for what, file in wrong.items():
        check(verdict(file) == f"not a store, at {place}", f"{what}: {verdict(file)}")
    both = data[:64] + slot_bytes(slot) * 2 + data[192:]
    check(verdict(both) == "not a store, at 0", "two slots of one number")
    lost = changed_directory(data, lambda k, n, t, r: (k, n, t, r[1:]))
    check(verdict(lost) == "opens, but the rows of order 0 are others", f"a lost run: {verdict(lost)}")


def check_bytes():
    """A directory that is cut short, or has another byte, is none or another one."""
    data = checkpointed(EMPTY)
    slot, said = (1, 209), named(data, (1, 209))
    for at in range(224, 275):
        for byte in range(256):
            file = data[:at] + bytes([byte]) + data[at + 1 :]
            check(byte == data[at] or named(file, slot) != said, f"byte {at} as {byte:02x} says nothing")
    body = frame_at(data, 209)[1]
    whole = directory_of(body)
    for size in range(len(body)):
        check(directory_of(body[:size]) != whole, f"a body of {size} bytes")


def main(files):
    if files:
        for name in files:
            with open(name, "rb") as file:
                print(f"{name}: {verdict(file.read())}")
        return
    check_empty()
    for kind in pages.KINDS:
        check_grown(kind)
    check_refused()
    check_bytes()
    print(checkpointed(EMPTY).hex(" "))


if __name__ == "__main__":
    main(sys.argv[1:])
