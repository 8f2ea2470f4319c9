"""Reads the sources just far enough for the house's checks: what an antt text declares, what a text brings in, and Rattle's
text without comments and contracts.

An antt text is read by its indentation. At the left edge of a file, a section, a record, a data type or a `where` block
stands `name :`, `name other :`, or `record`, `data` or `ruleset` and a name: these declare. What is deeper, and the clauses
that follow, belongs to the declaration above; so a bound variable, as `at` in `f : (at : ℕ) → ..`, is none.

A contract of Rattle is what stands in the braces of `requires`, `ensures` and `ghost`, with a name before them or none; what
an attribute `tactic` names is cited for the proofs.
"""
import functools
import re
from typing import NamedTuple

MARKS = r"(?:pattern |abbrev |unfoldable |axiom |pub )*"
TYPE = re.compile(rf"{MARKS}(record|data) ([^\s(){{}};,:=]+)")
RULESET = re.compile(r"(?:pub )?ruleset ([^\s=]+)")
SIGNED = re.compile(rf"{MARKS}((?:[^\s(){{}};,:=]+ )+)(?:\{{[^{{}}]*\}} )?:(?: |$)")
BESIDE = re.compile(r"(?:pub |unfoldable )*(?:use|mod|infix[lr]?) ")
USE = re.compile(r"(?m)^ *(?:ghost |unfoldable )?(pub )?use ([^\s{;:]+?)(?:\.\{([^}]*)\}| as ([^\s;]+))?;? *$")
RATTLE = re.compile(r"\b(?:const|static|fn|struct|enum|type|trait) (\w+)")
CLAUSE = re.compile(r"\b(?:(?:requires|ensures)\b(?:\s+\w+)?|ghost\s+(?!use\b)[\w«»']+\s*[:=]?)\s*\{")
ATTRIBUTE = re.compile(r"#!?\[tactic\b[^\]]*\]")
CITED = re.compile(r"\b(\w+)::(specs|proofs)::((?:\w+::)+)(\w+)")


class Declared(NamedTuple):
    line: int
    name: str
    kind: str  # name, type, field, constructor or local
    owner: str  # the type of a field or constructor
    around: tuple  # the declarations that it stands in, by number


class Level:
    """A block of items at one indentation: what its items are, and those that it stands in."""

    def __init__(self, indent, kind, owner, around):
        self.indent, self.kind, self.owner, self.around = indent, kind, owner, around
        self.current, self.opens = (), ("local", "")


def blanked(text):
    """The text's lines alone."""
    return "\n" * text.count("\n")


def plain_lines(text):
    """The lines of an antt text without comments."""
    text = re.sub(r"(?s)\{-.*?-\}", lambda made: blanked(made[0]), text)
    return [re.sub(r"(^|\s)--.*", "", line) for line in text.split("\n")]


def names_in(bare, level):
    """What an item's first line declares, with kinds and owners, and what a block under it holds; nothing for a clause."""
    if made := TYPE.match(bare):
        inner = "field" if made[1] == "record" else "constructor"
        return [(made[2], "type", level.owner)], (inner, made[2])
    if made := RULESET.match(bare):
        return [(made[1], "name", "")], ("local", "")
    if is_block(bare):
        return [], (level.kind, level.owner)
    if BESIDE.match(bare):
        return [], ("local", "")
    if made := SIGNED.match(bare):
        return [(name, level.kind, level.owner) for name in made[1].split()], ("local", "")
    return None


def is_block(bare):
    """Whether the lines under this one declare as those around it do."""
    return bare.startswith("module ") or re.fullmatch(rf"{MARKS}mutual", bare) is not None


def scan(text):
    """The declarations of an antt text, and for each line the numbers of those that it stands in, outermost first."""
    declared, inside = [], []
    levels, opened = [Level(0, "name", "", ())], False
    for number, line in enumerate(plain_lines(text), 1):
        bare, indent = line.strip(), len(line) - len(line.lstrip())
        if not bare:
            inside.append(())
            continue
        if opened and indent > levels[-1].indent:
            above = levels[-1]
            levels.append(Level(indent, *above.opens, above.around + above.current))
        while indent < levels[-1].indent:
            levels.pop()
        level = levels[-1]
        made = names_in(bare, level) if indent == level.indent else None
        if made:
            start = len(declared)
            declared.extend(Declared(number, name, kind, owner, level.around) for name, kind, owner in made[0])
            level.current, level.opens = tuple(range(start, len(declared))), made[1]
        inside.append(level.around + level.current)
        opened = bare == "where" or bare.endswith(" where") or (is_block(bare) and not bare.startswith("module "))
    return declared, inside


@functools.lru_cache(maxsize=None)
def names_of(text, rattle):
    """What an antt text, or one of Rattle, declares for others to see."""
    if rattle:
        return frozenset(RATTLE.findall(without_comments(text)))
    return frozenset(d.name for d in scan(text)[0] if d.kind != "local")


def brought(text):
    """What a text brings in for contracts and proofs: for each `use` its path, its names as pairs (there, here) or the
    module's name here, and `pub`. A name in braces may have a path of its own."""
    for pub, path, names, other in USE.findall(text):
        words = [p.strip() for p in re.split(r",\s*", names.strip()) if p.strip()]
        pairs = [[part.strip() for part in (word.split(" as ") * 2)[:2]] for word in words]
        yield path, [pair for pair in pairs if "." not in pair[0]], other or path.split(".")[-1] * (not names), bool(pub)
        for there, here in pairs:
            inner, _, last = there.rpartition(".")
            if inner:
                yield f"{path}.{inner}", [(last, here.rpartition(".")[2])], "", bool(pub)


def without_comments(text):
    """Rattle's text with its comments blanked; a string may hold two strokes."""
    return re.sub(r"(b?\"(?:\\.|[^\"\\\n])*\")|//[^\n]*|(?s:/\*.*?\*/)", lambda made: made[1] or blanked(made[0]), text)


def clauses(text):
    """Where the contracts of Rattle's text without comments stand: each clause's start, the start of what is in its braces,
    and the end of both."""
    at = 0
    while made := CLAUSE.search(text, at):
        depth, at = 1, made.end()
        while at < len(text) and depth:
            depth += {"{": 1, "}": -1}.get(text[at], 0)
            at += 1
        yield made.start(), made.end(), at - (not depth)


def without_contracts(text):
    """Rattle's text without comments, contracts, what is brought in for contracts, and tactics, line by line."""
    text = without_comments(text)
    kept, at = [], 0
    for start, _, end in clauses(text):
        # a closing brace, and the mark after a ghost item
        after = re.compile(r"\}?[;,]?").match(text, end).end() if text.startswith("ghost", start) else end + 1
        kept += [text[at:start], blanked(text[start:after])]
        at = after
    text = "".join([*kept, text[at:]])
    text = re.sub(r"(?m)^ *ghost use [^;]*;", lambda made: blanked(made[0]), text)
    return ATTRIBUTE.sub(lambda made: blanked(made[0]), text)


def code_of(text):
    """Rattle's text without contracts, and with a 0 for each string."""
    return re.sub(r"b?\"(?:\\.|[^\"\\])*\"|b?'(?:\\.|[^'\\])'", lambda made: "0" + blanked(made[0]), without_contracts(text))


def contracts_of(text):
    """What stands in the contracts of a text of Rattle, line by line."""
    text = without_comments(text)
    kept, at = [], 0
    for _, start, end in clauses(text):
        kept += [blanked(text[at:start]), text[start:end]]
        at = end
    return " ".join([*kept, blanked(text[at:])])


def cited(text, crate):
    """What a crate's text of Rattle cites for its proofs: for each name the path of its module, and the name."""
    for attribute in ATTRIBUTE.findall(without_comments(text)):
        for first, part, module, name in CITED.findall(attribute):
            yield f"Rattle.{crate if first == 'crate' else first}.{part}.{module[:-2].replace('::', '.')}", name


def functions(text):
    """The functions of a text of Rattle: of each its marks, as `pub`, its name, and what stands between that and its body."""
    text = without_comments(text)
    spans = list(clauses(text))
    for made in re.finditer(r'(?m)^ *((?:pub(?:\([^)]*\))? |const |unsafe |extern "C" )*)fn (\w+)', text):
        at, depth = made.end(), 0
        while at < len(text):
            clause = next((it for it in spans if it[0] == at), None)
            if clause:
                at = clause[2]
            elif text[at] in "([":
                depth += 1
            elif text[at] in ")]":
                depth -= 1
            elif depth == 0 and text[at] in "{;":
                break
            at += 1
        yield made[1], made[2], text[made.end():at]
