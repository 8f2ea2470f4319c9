#!/usr/bin/env python3
"""Lists the functions of the code that nothing calls, and the constants that nothing uses; fails if there is one.

    tests/uncalled.py [ROOT]     another copy of the repository

The program's `main`, the tests (`#[test]`), the public functions (`extern "C"`) and what an `impl` gives a trait of the
library are called from outside. What they call, by a name of their own file or one that the file brings in, by
`module::name(`, `Type::name(` or `.name(`, is called too, and so on; a function that only itself or an uncalled one calls is
not. A method's type is not known: `.name(` calls every method of that name. A constant is used where its name stands in a
function that is called, or in a constant or type. What stands in a contract or is cited for a proof calls nothing.
"""
import pathlib
import re
import sys
from typing import NamedTuple

sys.dont_write_bytecode = True
import sources  # noqa: E402

ROOT = pathlib.Path(sys.argv[1] if len(sys.argv) > 1 else pathlib.Path(__file__).parent.parent).resolve()
# the traits of the repository's own: what an `impl` gives one of these is called where its name is
TEXTS = {path: path.read_text(encoding="utf-8") for path in sorted(ROOT.glob("crates/*/src/**/*.rt"))}
TRAITS = {name for text in TEXTS.values() for name in re.findall(r"(?m)^ *(?:pub )?trait (\w+)", text)}
# called by nothing, with the reason; what they use is not used by that
ALLOWED = {
    "site limits_of_kinds": "it is there to be proved: the kinds' constants are the definitions' limits",
    "tables Table::whole": "it is there to be proved: a table is 576 words, whatever was put into it",
}
ITEM = re.compile(
    r'(?P<public>extern 0 |#\[test\]\s*(?:#\[[^\]]*\]\s*)*)?\bfn (?P<fn>\w+)|\bconst (?!fn\b)(?P<const>\w+)'
    r"|^ *(?:pub )?(?P<owner>impl|trait)\b(?P<head>[^{;]*)",
    re.M,
)
NAME = re.compile(r"((?<!\.)\.)?\b((?:\w+::)*)(\w+)\b(\s*\()?")


def end_of(code, start):
    """The place after the block, or the `;` outside of brackets, that ends an item."""
    depth = 0
    for place in range(start, len(code)):
        if code[place] in "{[(":
            depth += 1
        elif code[place] in "}])":
            depth -= 1
            if depth == 0 and code[place] == "}":
                return place + 1
        elif code[place] == ";" and depth == 0:
            return place + 1
    return len(code)


def owner_of(head):
    """The trait that an `impl` gives, if it does, and the type it is of, by what stands before its block; or a trait's name."""
    head = head.replace("->", " ")
    while "<" in head:
        head, before = re.sub(r"<[^<>]*>", "", head), head
        if head == before:
            break
    made = re.match(r"\s*(?:(?:\w+::)*(\w+)\s+for\s+)?&?(?:mut )?(?:\w+::)*(\w*)", head)
    return made[1], made[2]


class Item(NamedTuple):
    crate: str
    file: pathlib.Path
    owner: str  # the type of a method or of its constant
    name: str
    line: int
    kind: str  # root, fn or const
    body: str

    def told(self):
        return f"{self.owner}::{self.name}" if self.owner else self.name


def items_of(path):
    """The functions and constants of a file, and what stands outside of both."""
    code = sources.code_of(TEXTS[path])
    crate = path.relative_to(ROOT / "crates").parts[0]
    found, rest, owner, owner_end, is_given, at = [], code, "", 0, False, 0
    for made in ITEM.finditer(code):
        if made["owner"]:
            trait, owner = owner_of(made["head"])
            owner_end, is_given = end_of(code, made.end()), trait and trait not in TRAITS
            continue
        if made.start() < at or made["const"] == "_":
            continue
        at = end_of(code, made.end())
        of = owner if made.start() < owner_end else ""
        is_root = made["public"] or made["fn"] == "main" or (of and is_given)
        kind = "const" if made["const"] else "root" if is_root else "fn"
        line = code.count("\n", 0, made.start()) + 1
        found.append(Item(crate, path, of, made["fn"] or made["const"], line, kind, code[made.end():at]))
        rest = rest[:made.start()] + re.sub(r"[^\n]", " ", code[made.start():at]) + rest[at:]
    return found, re.sub(r"(?m)^ *(?:pub )?(?:use [^;]*;|mod .*)|^ *impl\b.*", "", rest), dict(brought(code))


def brought(code):
    """The names that a file brings in, each with the crate that it is from, or the file's own module, and its name there;
    `crate` is its own."""
    for tree in re.findall(r"(?m)^ *(?:pub )?use ([^;]+);", code):
        for path in paths_of(tree):
            there, _, here = (part.strip() for part in path.partition(" as "))
            parts = there.split("::")
            yield here or parts[-1], (parts[0], parts[-1])


def paths_of(tree):
    """The paths of a tree of `use`, as `a::{b, c::{d, e}}`."""
    head, brace, inner = tree.strip().partition("{")
    if not brace:
        if head.strip():
            yield head.strip()
        return
    depth, word = 0, ""
    for letter in inner.rstrip()[:-1] + ",":
        depth += {"{": 1, "}": -1}.get(letter, 0)
        if letter == "," and depth == 0:
            yield from (head.strip() + path for path in paths_of(word))
            word = ""
        else:
            word += letter


def meant(item, mark, path, name, called, uses):
    """Whether a name of a text in a crate and file may be this item."""
    crate, file, owner, known = uses
    if mark:
        return item.kind == "fn" and item.owner and called and item.name == name
    if item.kind == "fn" and not called:
        return False
    parts = path.split("::")[:-1]
    home, there = (parts[0], name) if parts else known.get(name, (None, name))
    if item.name != there:
        return False
    if item.owner:
        return parts[-1:] == [item.owner] or (parts == ["Self"] and (item.file, item.owner) == (file, owner))
    if not parts and item.file == file:
        return True
    home = known[home][0] if home in known and known[home][0] != "crate" else home
    return item.crate == home or (item.crate == crate and home in ("crate", item.file.stem))


def main():
    items, texts, known = [], [], {}
    for path in TEXTS:
        found, rest, known[path] = items_of(path)
        items += found
        texts.append((rest, path.relative_to(ROOT / "crates").parts[0], path, ""))
    by_name = {}
    for item in items:
        by_name.setdefault(item.name, []).append(item)
    # the texts that are still to be read, each with its crate, file and type
    texts += [(item.body, item.crate, item.file, item.owner) for item in items if item.kind == "root"]
    reached = set()
    while texts:
        text, *here = texts.pop()
        for mark, path, name, called in NAME.findall(text):
            for item in by_name.get(known[here[1]].get(name, (None, name))[1], []) + by_name.get(name, []):
                if item not in reached and item.kind != "root" and meant(item, mark, path, name, called, (*here, known[here[1]])):
                    reached.add(item)
                    texts.append((item.body, item.crate, item.file, item.owner))
    bad = [item for item in items if item.kind != "root" and item not in reached and f"{item.crate} {item.told()}" not in ALLOWED]
    for item in bad:
        what = "uses" if item.kind == "const" else "calls"
        print(f"{item.file.relative_to(ROOT)}:{item.line}: nothing {what} {item.told()}")
    functions = sum(item.kind != "const" for item in items)
    print(f"{functions} functions, {len(items) - functions} constants, {len(bad)} that nothing calls or uses")
    return 1 if bad or functions < 100 else 0


if __name__ == "__main__":
    sys.exit(main())
