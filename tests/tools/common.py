"""What the tests of tools/site share: running it, folders, the worked site's bytes, random sites."""
import contextlib
import io
import os
import subprocess
import sys
import tempfile
from unittest import mock

sys.dont_write_bytecode = True
sys.path.insert(0, os.path.dirname(os.path.abspath(__file__)))
import model
from dzysite.commands import main
from dzysite.files import right_of, write_bundle, write_rules
from dzysite.kinds import Site

os.chdir(model.ROOT)
TOOL = os.path.join(model.ROOT, "tools", "site")
R = bytes.fromhex("02 01 05 01 00 01 00 01 40 00 41 00 04 00 03 00 01")
F = bytes.fromhex("06 00 07 01 07 01 09 40 09 07 40 09 AC 02 40 0C 0C")
LISTING = """facts 6 kept 1 alone 1 disputed 4
0 disputed 1
1 disputed 0
2 kept
3 disputed 1
4 disputed 3
5 alone
"""
HEAD = "concept A\nconcept B\nrole r\nrole s\nthing x = 1\nthing y = 2\n"
SEED = 20011


def run_process(*words, stdin=b""):
    """The tool as a user runs it, in the root: its status, standard output and standard error."""
    done = subprocess.run([sys.executable, TOOL, *words], input=stdin, capture_output=True, cwd=model.ROOT)
    return done.returncode, done.stdout.decode(), done.stderr.decode()


def run(*words, stdin=b""):
    """The same within this process, which is faster."""
    out, errors = io.StringIO(), io.StringIO()
    stream = io.TextIOWrapper(io.BytesIO(stdin))
    with contextlib.redirect_stdout(out), contextlib.redirect_stderr(errors), mock.patch.object(sys, "argv", ["site", *words]), mock.patch.object(sys, "stdin", stream):
        try:
            status = main()
        except SystemExit as end:
            status = end.code
    return status, out.getvalue(), errors.getvalue()


def file_of(folder, name, mode="rb"):
    with open(os.path.join(folder, name), mode) as file:
        return file.read()


def put(folder, name, data):
    path = os.path.join(folder, name)
    with open(path, "wb") as file:
        file.write(data if isinstance(data, bytes) else data.encode())
    return path


def new_folder(test):
    """A folder for the length of a test."""
    folder = tempfile.TemporaryDirectory()
    test.addCleanup(folder.cleanup)
    return folder.name


def document(name):
    return file_of(os.path.join(model.ROOT, "docs"), name).decode()


def random_site(rng, small):
    """Rules and facts that the format accepts, with names for some of what they use."""
    concepts = rng.randint(0, 6 if small else 64)
    roles = rng.randint(0, 4 if small else 32)
    basics = list(range(concepts)) + [64 + q for q in range(2 * roles)]
    rules = []
    for _ in range(rng.randint(0, 12 if small else 512)):
        kind = rng.choice((0, 1, 2, 3, 4))
        row = basics if kind < 2 else list(range(2 * roles))
        if row:
            rules.append((kind,) + tuple(rng.choice(row) for _ in range(1 if kind == 4 else 2)))
    rules = [rule for rule in rules if rule[0] != 4 or right_of(rules, rule[1]) is None]
    predicates = list(range(concepts)) + [64 + j for j in range(roles)]
    most = 5 if small else 65535
    facts = set()
    for _ in range(rng.randint(0, 10 if small else 4096)):
        if predicates:
            predicate = rng.choice(predicates)
            facts.add((predicate, rng.randint(0, most), rng.randint(0, most) if predicate >= 64 else 0))
    names = {}
    for kind, count in (("concept", concepts), ("role", roles), ("thing", 65536)):
        for number in rng.sample(range(count), min(count, rng.randint(0, 5))):
            names[kind, number] = rng.choice("abC_R") + "".join(rng.choice("019aZ_.-") for _ in range(4)) + str(len(names))
    lines = "".join(f"{kind} {number} {name}\n" for (kind, number), name in names.items())
    whole = Site([""] * concepts, [""] * roles, {}, rules, sorted(facts))
    return write_rules(whole), write_bundle(whole), lines
