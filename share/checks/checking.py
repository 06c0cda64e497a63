"""What the tests of the tools have in common; it is no test itself."""
import atexit
import importlib.machinery
import importlib.util
import os
import re
import shutil
import subprocess
import sys
import tempfile

sys.path.insert(0, "share/python")
import cpdb

PROGRAM = os.environ.setdefault("CPDB", os.path.abspath("bin/cpdb"))
# In memory where that can be, since each commit to a store waits for the disk.
FOLDER = tempfile.mkdtemp(prefix="cpdb-check-", dir="/dev/shm" if os.access("/dev/shm", os.W_OK | os.X_OK) else None)
failed = False

# The tour of README in the kind n or h: three operations by Ada L, five by nobody, and two with a reason.
TOUR = [
    ("Ada L", ['load P json "examples/places.json"', 'load G csv "examples/genes.csv" by gene',
               'ins {tp53 : {gene : {}, site : {}, note : "guardian of the genome"}} into T',
               "copy G/ENSG00000141510 into T/tp53/gene", "copy P/bern into T/tp53/site", "commit"]),
    ("", ["del rivers from T/tp53/site", 'ins {alias : "LFS1"} into T/tp53/gene', "ins {archive : {}} into T",
          "copy T/tp53 into T/archive", "copy P/denver into T/tp53/site", "commit"]),
    ("Bo", ['ins {reasons : {9 : "cleaned up"}} into T', "del site from T/tp53", "commit"]),
]


@atexit.register
def remove():
    shutil.rmtree(FOLDER, ignore_errors=True)


def path(name):
    """A path in the test's folder."""
    return os.path.join(FOLDER, name)


def problem(text):
    global failed
    failed = True
    print(text)


def same(what, found, wanted):
    """Tells where what was found isn't what is wanted."""
    if found != wanted:
        problem(f"{what}: found {found!r}, wanted {wanted!r}")


def raises(what, error, call):
    """Tells where a call doesn't raise such an error; answers the error."""
    try:
        found = call()
    except error as it:
        return it
    problem(f"{what}: found {found!r}, wanted {error.__name__}")
    return None


def tool(name, *words, stdin=""):
    """Runs bin/cpdb-NAME; answers its output, what it says on standard error, and its status."""
    ran = subprocess.run([sys.executable, f"bin/cpdb-{name}", *words], input=stdin.encode(), capture_output=True, check=False,
                         timeout=900)
    return ran.stdout.decode(), ran.stderr.decode(), ran.returncode


def program_of(name):
    """The program of bin/cpdb-NAME as a module, which isn't run."""
    loader = importlib.machinery.SourceFileLoader(f"cpdb_{name}", f"bin/cpdb-{name}")
    module = importlib.util.module_from_spec(importlib.util.spec_from_loader(loader.name, loader))
    loader.exec_module(module)
    return module


def told(what, ran, lines, status=0):
    """Tells where a tool has written other lines, dates aside, or ended otherwise, or said anything on standard error."""
    output, said, ended = ran
    same(what, (re.sub(r"\d{4}-\d\d-\d\dT\d\d:\d\d:\d\dZ", "DATE", output).splitlines(), said, ended), (lines, "", status))


def refused(what, ran, said, status):
    """Tells where a tool hasn't refused with these words and this status."""
    same(what, ran, ("", f"{said}\n", status))


def helps(name):
    """Tells where a tool has no help, or ends otherwise than with 2 where it has no words."""
    output, said, status = tool(name, "--help")
    same(f"{name} --help", (output.startswith(f"usage: cpdb {name} "), said, status), (True, "", 0))
    output, said, status = tool(name)
    same(f"{name} without words", (output, said.startswith(f"usage: cpdb {name} "), status), ("", True, 2))


def run(store, curator, statements):
    """Runs statements on a store, and answers the lines of each."""
    with cpdb.Session.run(store, curator or None) as session:
        return list(session.ask_all(statements))


def tour(kind, name="tour.cpdb"):
    """A store of the kind with the tour."""
    store = path(name)
    cpdb.init(store, kind)
    for curator, statements in TOUR:
        for lines in run(store, curator, statements):
            if any(it.startswith("refused") for it in lines):
                problem(f"the tour is refused: {lines}")
    return store


def end():
    sys.exit(1 if failed else 0)
