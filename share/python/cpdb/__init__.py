"""CPDB from Python: sessions with a store, replies as values, spellings both ways, and the bytes of a store's file.

    import cpdb

    with cpdb.Session.run("rivers.cpdb", "Ada L") as session:
        session.load_json("P", "places.json")
        session.copy("P/bern", "T")
        session.commit()
        print(session.trace("T/rivers/0"))

It runs the program `cpdb` and reads what that writes, so that every answer is the program's; nothing of it is proved.
`program` says which program it runs. Statements, spellings and replies are those of docs/STATEMENTS.md, the file's bytes
those of docs/FORMAT.md. It needs Python 3.8 or later and no other package.

The tools of bin/ find it by these lines, in the repository and in an installation, in which bin/ and share/python lie side
by side as here (PREFIX/bin/cpdb is a link to the bin/cpdb there):

    sys.path.insert(0, os.path.join(os.path.dirname(os.path.dirname(os.path.realpath(__file__))), "share", "python"))
    import cpdb
"""
from .calls import archive, at, copy_of, init, log, program, query, uses, verify
from .replies import (Archive, Commit, Committed, End, Ended, Origin, Record, Refused, Segment, Stats, Trace, read_archive, read_commit,
                      read_committed, read_origin, read_record, read_records, read_show, read_src, read_stats, read_tids,
                      read_trace, read_uses)
from .session import Session, statement_of
from .spelling import (Place, SpellingError, Tree, copy_text, delete_text, insert_text, is_name, label_text, quoted, read_label, read_tree, read_value, tree_text,
                       value_text, walk)
from .storefile import (CommitEntry, Copy, Delete, Entry, FormatError, Frame, Frames, Header, Insert, Load, Operation, Slot,
                        Start, entries_of, entry, frame_at, frames, header, is_vacant, operation_text, upto)

__all__ = ["Archive", "Commit", "CommitEntry", "Committed", "Copy", "Delete", "End", "Ended", "Entry", "FormatError", "Frame", "Frames",
           "Header", "Insert", "Load", "Operation", "Origin", "Place", "Record", "Refused", "Segment", "Session", "Slot",
           "SpellingError", "Start", "Stats", "Trace", "Tree", "archive", "at", "copy_of", "copy_text", "delete_text", "entries_of", "entry",
           "frame_at", "frames", "header", "init", "insert_text", "is_name", "is_vacant", "label_text", "log", "operation_text", "program",
           "query", "quoted", "read_archive", "read_commit", "read_committed", "read_label", "read_origin", "read_record", "read_records",
           "read_show", "read_src", "read_stats", "read_tids", "read_trace", "read_tree", "read_uses", "read_value",
           "statement_of", "tree_text", "upto", "uses", "value_text", "verify", "walk"]
