#!/usr/bin/env python3
"""Lists the definitions and lemmas of specs/ and proofs/ that nothing uses and no document names; fails if there is one.

    tests/dead_lemmas.py [ROOT]     another copy of the repository

A name is the module's that declares it: a lemma of one crate is not used because another crate has one of that name. What
the contracts of the code say and its attributes `tactic` name, what the checker asks of a function's own proof files (a goal
that is answered, a loop's invariant and measure, `.._spec`), and what docs/TRACE.md or docs/PROMISES.md names together with
its file, is alive; so is what something alive uses, in its own file or where a file brings it in. A field is used by its
projection or in a record's text anywhere, since only a type would tell whose field it is. Bringing a name in is no use of it.
"""
import pathlib
import re
import sys

sys.dont_write_bytecode = True
import sources  # noqa: E402

ROOT = pathlib.Path(sys.argv[1] if len(sys.argv) > 1 else pathlib.Path(__file__).parent.parent).resolve()
WORD = re.compile(r"[^\s(){};,\[\]λ]+")
LITERAL = re.compile(r"[{;]\s*([^\s(){};,.=]+) =")
OUTSIDE = ()  # what uses a name and is itself no declaration: a contract, a document, a section's head


def keys(name):
    """The words by which a name is written: an operator's own, or its parts between its arguments' places."""
    return [name, *(part for part in name.split("◌") if part)] if "◌" in name else [name]


class File:
    """A source with what it declares and brings in. `words` has each word with the declarations that it stands in."""

    def __init__(self, path):
        self.path = path
        text = path.read_text(encoding="utf-8")
        is_antt = path.suffix == ".antt"
        self.declared, inside = sources.scan(text) if is_antt else ([], [])
        self.brought = list(sources.brought("\n".join(sources.plain_lines(text)) if is_antt else sources.without_comments(text)))
        self.cited = [] if is_antt else list(sources.cited(text, path.relative_to(ROOT / "crates").parts[0]))
        text = "\n".join(sources.plain_lines(text)) if is_antt else sources.contracts_of(text)
        text = sources.USE.sub(lambda made: sources.blanked(made[0]), text)
        self.lines = text.split("\n")
        self.literals = set(LITERAL.findall(text))
        self.words = []
        for number, line in enumerate(self.lines):
            around = inside[number] if inside else OUTSIDE
            self.words.extend((word.rstrip(".") or word, around) for word in WORD.findall(line))
        self.by_key = {}
        for number, declared in enumerate(self.declared):
            for key in keys(declared.name):
                self.by_key.setdefault(key, []).append(number)

    def is_asked(self, declared):
        """Whether the checker asks this of a function: the whole proof, or an answer to one of the goals that it made."""
        if self.path.name == "Proof.antt":
            return declared.name.endswith("_spec")
        if self.path.name not in ("Answers.antt", "Invariants.antt"):
            return False
        goals = [other for path, _, other, _ in self.brought if path.endswith((".Goals", ".Given"))]
        line = self.lines[declared.line - 1].rstrip()
        return any(line.endswith(f"{declared.name} : {goal}.{declared.name}") for goal in goals)


def module_of(path, files):
    """The file of a module's path and the type in it, as `Rattle.site.specs.Kinds.Node`; nothing for what is not ours."""
    parts = path.split(".")
    if parts[0] != "Rattle":
        return None
    here = ROOT / "crates"
    for end in range(len(parts), 3, -1):
        file = here.joinpath(*parts[1:end]).with_suffix(".antt")
        if file in files:
            return files[file], ".".join(parts[end:])
    return None


def find(module, name, files):
    """The declarations that a module gives under a name, its own or passed on."""
    if module is None:
        return
    file, owner = module
    for number, declared in enumerate(file.declared):
        if declared.name == name and declared.kind != "local" and owner in ("", declared.owner):
            yield file, number
    for path, pairs, _, passed in file.brought:
        for there, here in pairs:
            if passed and here == name:
                yield from find(module_of(path, files), there, files)


def plain(file, word, around, brought):
    """The declarations that a word without a dot may stand for."""
    for number in file.by_key.get(word, []):
        declared = file.declared[number]
        if number not in around and (declared.kind != "local" or declared.around[-1] in around):
            yield file, number
    yield from brought.get(word, [])


def targets(file, word, around, tables, files):
    """The declarations that a word of a file may stand for: a name, a name of a module or of a type, and projections."""
    brought, modules, members = tables
    word = word.replace("«", "").replace("»", "")
    first, *rest = word.split(".")
    path, item = modules.get(first, first), 0
    if first in modules or first == "Rattle":
        # as much of it as is a module's path, then a name of that module
        for end in range(len(rest), 0, -1):
            made = list(find(module_of(".".join([path, *rest[:end - 1]]), files), rest[end - 1], files))
            if made:
                yield from made
                item = end
                break
        if item == 0 and first not in brought and first not in file.by_key:
            return
    if item == 0:
        yield from plain(file, first, around, brought)
    for before, part in zip([first, *rest][item:], rest[item:]):
        yield from members.get((before, part), [])
        yield from members.get(("", part), [])


def uses(files):
    """For each declaration, or for what is none, the declarations that it uses."""
    members = {}
    for file in files.values():
        for number, declared in enumerate(file.declared):
            if declared.kind in ("field", "constructor"):
                members.setdefault((declared.owner, declared.name), []).append((file, number))
            if declared.kind == "field":
                members.setdefault(("", declared.name), []).append((file, number))
    found = {}
    for file in files.values():
        brought, modules = {}, {}
        for path, pairs, other, _ in file.brought:
            if other:
                modules[other] = path
            for there, here in pairs:
                for key in keys(here):
                    brought.setdefault(key, []).extend(find(module_of(path, files), there, files))
        for word, around in file.words:
            user = (file, around[0]) if around else OUTSIDE
            found.setdefault(user, set()).update(targets(file, word, around, (brought, modules, members), files))
        for name in file.literals:
            found.setdefault(OUTSIDE, set()).update(members.get(("", name), []))
        for path, name in file.cited:
            found.setdefault(OUTSIDE, set()).update(find(module_of(path, files), name, files))
    return found


def named():
    """What the documents name: pairs of a file and a name."""
    trace = (ROOT / "docs/TRACE.md").read_text(encoding="utf-8")
    for line in re.findall(r"(?m)^- (?:definition|theorem|code) (.*)", trace):
        for names, path in re.findall(r"((?:`[^`]+` )+)\(([^)\s]+)\)", line):
            yield from ((ROOT / "crates" / path, name) for name in re.findall(r"`([^`]+)`", names))
    promises = (ROOT / "docs/PROMISES.md").read_text(encoding="utf-8")
    for names, path in re.findall(r"((?:`[^`/]+`(?:,| and)? )+)in `(crates/[^`]+\.antt)`", promises):
        yield from ((ROOT / path, name) for name in re.findall(r"`([^`]+)`", names))


def main():
    paths = sorted(path for part in ("src", "specs", "proofs") for path in ROOT.glob(f"crates/*/{part}/**/*"))
    files = {path: File(path) for path in paths if path.suffix in (".rt", ".antt")}
    found = uses(files)
    told = set(named())
    alive, fresh = set(), set(found.get(OUTSIDE, ()))
    for file in files.values():
        for number, declared in enumerate(file.declared):
            if file.is_asked(declared) or (file.path, declared.name) in told:
                fresh.add((file, number))
    while fresh:
        alive |= fresh
        fresh = set().union(*(found.get(one, ()) for one in fresh)) - alive
    count, dead = 0, []
    for file in files.values():
        count += len(file.declared)
        dead += [(file.path.relative_to(ROOT), d) for number, d in enumerate(file.declared) if (file, number) not in alive]
    for path, declared in dead:
        print(f"{path}:{declared.line}: nothing uses {declared.name}")
    print(f"{count} names, {len(dead)} that nothing uses and no document names")
    return 1 if dead or count < 1000 else 0


if __name__ == "__main__":
    sys.exit(main())
