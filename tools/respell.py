#!/usr/bin/env python3
"""Turns the repository's own definitions and lemmas to today's spelling: words in snake case, no capital inside a word, no dash
between the words of one name. It was run once, on the tree that the toolchain's port script had left, and is kept so that
the older text can be set beside today's.

    tools/respell.py            rewrites specs/, proofs/, clauses and comments of src/, in place
    tools/respell.py --pages    before that: rewrites names between backticks in README.md and docs/ (landing notes stay)

A name is the repository's own if it is declared in specs/ or proofs/. Functions and types of src/, strings, inputs and outputs keep
their names. Of two names that would fall together, the definition gets the plain one and the lemma `_lem` at its end.
"""
import collections
import pathlib
import re
import sys

ROOT = pathlib.Path(__file__).resolve().parent.parent
WORD = re.compile(r"(?:◌)?[^\W\d][\w'′-]*", re.U)
DECLARES = re.compile(
    r"(?m)^\s*(?:abbrev |unfoldable |pub |data |record |ruleset )*([^\W\d][\w'-]*)\s*(?:\{[^}\n]*\}\s*)?(?:\([^\n]*?\)\s*)*:(?!=)", re.U)
OWN = [["Rattle", p.name] for p in sorted((ROOT / "crates").iterdir())]
# names of two hexadecimal digits, and a lemma of the library that has a capital inside
NOT_OWN = re.compile(r"x[0-9A-F]{2}|lt-wfRel")
# the library's own name for what an older lemma had as getD
PLAIN = {"getD-within": "get_or_within", "get_d_any": "get_or_any"}


# what the port script itself had turned, for the pages, which it leaves alone
PORTED = """
add-spec added-more added-none after-both after-first after-last after-none all-read all-shown alone-of and-both and-left and-right answerOf
any-found any-none any-of any-same apart-in apart-out as-many asked-of at-byte at-count at-first at-least-one at-most-one at-once at-place
at-rest at-some atMost bad-kind below-64 below-on bit-is bitOf blank-none both-read by-2 by-4 by-8 by-answer by-count by-digits by-end
by-form by-kind by-left by-number by-way by-written bytes-2 bytes-after bytesOf close-spec code-in codeAt comes-of count-fits count-same
count-spec countOf counts-same declared-same digit-or each-more each-of end-is end-refused endAt factOf factsOf few-bytes fill-spec
filled-is first-byte first-fits first-found first-of first-short first-three follows-same formOf found-back found-plain from-first from-is
from-one from-row from-second gave-one get-spec getD-any given-is goes-down goes-end goes-first goes-on goes-then handed-out has-done
has-right has-room head-near head-read headOf in-code in-order in-row in-table is-below is-code is-declared is-digit is-false is-known
is-right is-state is-zero isA isEmpty keep-same keeps-spec kept-by kept-from kept-more kept-of kept-read kept-same kind-0 kind-1 kind-2
kind-3 kindAt laid-both lastOf lineAt lines-fit linesFrom linesOf link-apart list-written listed-in listed-of main-spec map-same mark-of
markOf marked-all more-bytes movedTo never-back new-spec next-fits no-bytes no-more no-room no-row no-slot no-stray no-world noItem
node-at-spec node-in nodeOf none-first none-kept none-left none-spec not-first not-stopped not-written number-more numberAt of-code of-left
of-none of-one of-pair of-right one-answer one-byte one-code one-end one-form one-has one-more one-of-two one-on one-table one-type only-one
or-cases or-left or-right other-row other-way pair-same pass-on pass-spec passed-none passed-on passed-over passed-start past-end placeOf
push-spec put-next put-refused read-again read-back read-one read-whole readOf readOn records-is right-is ring-of role-out′ rolesOf
room-after roomFor row-at row-lawful row-same rowAt rowOf rows-back rowsOf ruled-out same-check same-code same-digits same-from same-head
same-kept same-length same-next same-number same-rest same-row same-test second-fits second-short second-type seek-found shut-out size-is
some-at some-out split-by split-from start-back start-is start-of start-right start-spec startOf starts-by starts-with step-spec stop-is
store-spec stored-there take-all takenOf then-same to-end to-is to-row to-take too-many too-short took-one turn-spec turned-on turned-right
turned-round two-bytes typesOf up-to upTo value-there valueOf walk-ends walk-refused whole-length whole-of whole-word widen-spec within-both
without-end write-kept writes-nothing written-as written-count written-from written-in written-read writtenOf zero-word
""".split()


def antt_files():
    for folder in ("specs", "proofs"):
        yield from sorted((ROOT / "crates").glob(f"*/{folder}/**/*.antt"))


def no_comments(text):
    return re.sub(r"--.*", "", text)


def snake(word):
    return re.sub(r"(?<=[a-z])(?=[A-Z])", "_", word).replace("-", "_").lower()


def table():
    """Old name -> new name, for the names that are declared here and change."""
    declared, imported, words = set(), set(), collections.defaultdict(set)
    for path in antt_files():
        text = no_comments(path.read_text(encoding="utf-8"))
        declared.update(DECLARES.findall(text))
        for line in re.findall(r"(?m)^use .*$", text):
            if line.split()[1].split(".")[:2] not in OWN:
                imported.update(WORD.findall(line))
        for word in WORD.findall(text):
            words[word].add(path)
    old = {w for w in words if re.match("[a-z]", w) and not NOT_OWN.fullmatch(w) and w not in imported
           and (w in declared and "-" in w or re.search("[a-z][A-Z]", w))
           and not w.startswith(("invariant-loop", "decreases-loop"))}
    camel = {snake(w) for w in old if re.search("[a-z][A-Z]", w) and "-" not in w}
    new = {}
    for w in sorted(old):
        n = PLAIN.get(w) or snake(w)
        if "-" in w and (n in camel or n in imported or n + "_lem" in words):
            n += "_lem"
        new[w] = n
    # a lemma that the port script had turned already, to the name that a definition gets now
    for n in sorted(camel & declared):
        for path in words[n]:
            with_camel = any(snake(w) == n and path in words[w] for w in old)
            if with_camel:
                new.setdefault((n, path.parts[path.parts.index("crates") + 1]), n + "_lem")
    new["get_d_any"] = "get_or_any"
    return new


def turn(text, new, crate=None):
    def one(m):
        w = m.group()
        return new.get((w, crate)) or new.get(w, w)
    return WORD.sub(one, text)


def turn_source(text, new, crate):
    """Clauses, imports and comments of a source file; its code stays."""
    lines, inside = [], False
    for line in text.split("\n"):
        bare = line.strip()
        if inside or bare.startswith(("ghost use", "requires", "ensures", "//")):
            line = turn(line, new, crate)
            inside = not bare.startswith("//") and line.count("{") > line.count("}") if not inside else line.count("}") <= line.count("{")
        lines.append(line)
    return "\n".join(lines)


def pages(new):
    """Names between backticks in README.md and docs/, but for the landing notes."""
    old = {**{w: snake(w) for w in PORTED}, **{k: v for k, v in new.items() if isinstance(k, str)}}
    for path in [ROOT / "README.md", *sorted((ROOT / "docs").glob("*.md"))]:
        text = path.read_text(encoding="utf-8")
        text = re.sub(r"`[^`\n]+`", lambda m: turn(m.group(), old), text)
        path.write_text(text, encoding="utf-8")


def main():
    new = table()
    if "--pages" in sys.argv:
        pages(new)
        return
    for path in antt_files():
        crate = path.parts[path.parts.index("crates") + 1]
        path.write_text(turn(path.read_text(encoding="utf-8"), new, crate), encoding="utf-8")
    for path in sorted((ROOT / "crates").glob("*/src/**/*.rt")):
        crate = path.parts[path.parts.index("crates") + 1]
        path.write_text(turn_source(path.read_text(encoding="utf-8"), new, crate), encoding="utf-8")
    for old in sorted(new, key=str):
        print(old, "->", new[old])


if __name__ == "__main__":
    main()
