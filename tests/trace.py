#!/usr/bin/env python3
"""Holds docs/TRACE.md to the repository and to the customer's documents; fails at a name that no longer exists, at a sentence
that nothing holds, and at one that is quoted wrongly or left out.

    tests/trace.py [PAGE [ROOT]]     another page than docs/TRACE.md, another copy of the repository

The documents lie in ../shared beside the project, or in the folder that DOCUMENTS names (`quotes.py` says how the page is held
to them). Where there is no such folder, as beside a clone that stands alone, the page is held to the repository only.

A sentence is quoted, `> ..`. The lines after it, up to the next quote or heading, say what holds it:

    - definition `name` `name` (number/specs/Number.antt)
    - theorem `name` (..)
    - wrong version `number/second_byte`
    - test `name` (tests/..)

The names before a path in brackets are declared there (definition, theorem, code: a path under crates/) or stand there
(test, document: a path under the root). A wrong version is CRATE/EDIT of crates/CRATE/must-fail/EDIT.edit.
A line `<!-- .. -->` is not read.
Every public operation has a heading `### dzy_..` with its promise, the theorem that it leaves one answer, and three
wrong versions or answers at least, and is tied to its promise in crates/face/specs/Face.antt, and under its C name in
crates/dzyunagor_c/proofs/Exports.antt; what that crate gives to C is just these operations, each with the contract, word
for word, that the library's function of that name has. Every wrong version of the repository stands somewhere.
docs/EXCEPTIONS.md lists every public function with a `requires`.
"""
import os
import pathlib
import re
import sys

sys.dont_write_bytecode = True
import quotes  # noqa: E402
import sources  # noqa: E402

HERE = pathlib.Path(__file__).resolve().parent.parent
ROOT = pathlib.Path(sys.argv[2]).resolve() if len(sys.argv) > 2 else HERE
DOCUMENTS = pathlib.Path(os.environ.get("DOCUMENTS", HERE.parent / "shared"))
KINDS = ("definition", "theorem", "code", "wrong version", "test", "document")
PART = re.compile(r"`([^`]+)`|\(([^)\s]+)\)")
LIBRARY, TO_C = "crates/dzyunagor/src/lib.rt", "crates/dzyunagor_c/src/lib.rt"
TIED = ("crates/face/specs/Face.antt", "crates/dzyunagor_c/proofs/Exports.antt")
bad = []


def fault(line, what):
    bad.append(f"docs/TRACE.md:{line}: {what}")


def text_of(path, known={}):
    if path not in known:
        known[path] = path.read_text(encoding="utf-8") if path.is_file() else None
    return known[path]


def stands(text, name):
    """The name as a word of its own, or the words as they are."""
    return re.search(rf"(?<!\w){re.escape(name)}(?!\w)", text) is not None


def check_names(line, kind, names, path):
    under = ROOT / "crates" if kind in ("definition", "theorem", "code") else ROOT
    text = text_of(under / path)
    if text is None:
        fault(line, f"no file {path}")
        return
    for name in names:
        held = name in sources.names_of(text, path.endswith(".rt")) if under != ROOT else stands(text, name)
        if not held:
            fault(line, f"no {kind} {name} in {path}")


def check_item(line, item, edits):
    """One item; its kind, or nothing where it is not one."""
    kind = next((k for k in KINDS if item.startswith(k + " ")), None)
    if kind is None:
        fault(line, f"neither of {', '.join(KINDS)}: {item}")
        return None
    names = []
    for name, path in PART.findall(item):
        if name:
            names.append(name)
        else:
            check_names(line, kind, names, path)
            names = []
    if kind == "wrong version":
        for name in names:
            crate, _, edit = name.partition("/")
            if not (ROOT / "crates" / crate / "must-fail" / f"{edit}.edit").is_file():
                fault(line, f"no wrong version {name}")
            edits.add(name)
    elif names:
        fault(line, f"no path for {', '.join(names)}")
    return kind


def blocks(lines):
    """Each quote or operation's heading with its line, and the items under it with theirs."""
    here = None
    for number, line in enumerate(lines, 1):
        if line.startswith((">", "### ")):
            if line.startswith(">") and lines[number - 2].startswith(">"):
                continue
            if here:
                yield here
            here = (number, line, [])
        elif line.startswith("#"):
            if here:
                yield here
            here = None
        elif line.startswith("- "):
            if here:
                here[2].append((number, line[2:]))
            else:
                yield number, "", [(number, line[2:])]
    if here:
        yield here


def asking():
    """The public functions with a `requires`, by crate."""
    found = set()
    for path in sorted((ROOT / "crates").glob("*/src/**/*.rt")):
        for marks, name, head in sources.functions(path.read_text(encoding="utf-8")):
            if "pub " in marks and re.search(r"\brequires\b", head):
                found.add((path.relative_to(ROOT / "crates").parts[0], name))
    return found


def check_exceptions():
    """docs/EXCEPTIONS.md lists just these."""
    listed = set()
    for line in (ROOT / "docs/EXCEPTIONS.md").read_text(encoding="utf-8").split("\n"):
        cells = [c.strip() for c in line.strip("|").split("|")]
        if line.startswith("| `") and len(cells) == 4:
            listed.update((cells[0].strip("`"), name) for name in re.findall(r"`(\w+)`", cells[1]))
    for crate, name in sorted(asking() ^ listed):
        bad.append(f"docs/EXCEPTIONS.md: {crate} {name} has a `requires` and is not listed, or is listed and has none")


def check_quotes(lines):
    """The page's sentences are the documents'."""
    if not DOCUMENTS.is_dir():
        print(f"the sentences were not held to the documents: there is no folder {DOCUMENTS.name} beside the project")
        return
    due, missing = quotes.due_sections(DOCUMENTS)
    for name in missing:
        bad.append(f"no document {name} in the folder {DOCUMENTS.name}")
    for line, what in quotes.differences(lines, due) if not missing else ():
        fault(line, what)


def contracts(path, marks_due):
    """The contract of each function of a file that has these marks, or nothing where it has none."""
    for marks, name, head in sources.functions(text_of(ROOT / path) or ""):
        if marks_due in marks:
            yield name, " ".join(head[next(sources.clauses(head), (len(head),))[0]:].split())


def check_face(operations):
    """What C calls are the operations, tied to their promises, with the library's own contracts."""
    library, to_c = dict(contracts(LIBRARY, "pub ")), dict(contracts(TO_C, 'pub extern "C" '))
    if set(to_c) != operations:
        bad.append(f"docs/TRACE.md: operations that differ from the face: {sorted(set(to_c) ^ operations)}")
    for page in TIED:
        tied = set(re.findall(r"Keeps (dzy_\w+)\.ended", text_of(ROOT / page) or ""))
        if set(to_c) != tied:
            bad.append(f"{page}: operations that differ from the face: {sorted(set(to_c) ^ tied)}")
    for name, contract in sorted(to_c.items()):
        if not contract or library.get(name) != contract:
            bad.append(f"{TO_C}: {name} has not the contract of the library's {name}")


def main():
    check_exceptions()
    edits, operations, sentences = set(), {}, 0
    page = pathlib.Path(sys.argv[1]) if len(sys.argv) > 1 else ROOT / "docs/TRACE.md"
    lines = page.read_text(encoding="utf-8").split("\n")
    check_quotes(lines)
    for number, head, items in blocks(lines):
        kinds = [check_item(line, item, edits) for line, item in items]
        if head.startswith("### "):
            operations[head[4:].strip("` ")] = kinds
            if not {"definition", "theorem", "wrong version"} <= set(kinds):
                fault(number, f"{head[4:]} has no promise, theorem or wrong version")
            if sum(len(re.findall(r"`\w+_not_|`\w+/", item)) for _, item in items) < 3:
                fault(number, f"{head[4:]} has less than three wrong versions and wrong answers")
        elif head:
            sentences += 1
            if not kinds:
                fault(number, f"nothing holds: {head[2:60]}")
    check_face(set(operations))
    all_edits = {f"{p.parent.parent.name}/{p.stem}" for p in ROOT.glob("crates/*/must-fail/*.edit")}
    bad.extend(f"docs/TRACE.md: wrong version {name} holds no sentence" for name in sorted(all_edits - edits))
    print("\n".join(bad + [f"{sentences} sentences, {len(operations)} operations, {len(edits)} wrong versions, {len(bad)} faults"]))
    return 1 if bad or sentences < 100 else 0


if __name__ == "__main__":
    sys.exit(main())
