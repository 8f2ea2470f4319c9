"""What an author may have meant: the nearest name, and lines to write in the place of a bad one.

A line is only told to the author if it would be accepted: statements.py tries each."""
import difflib
import re

PUNCTUATION = re.compile("[(),;:]+")

# Signs for an inclusion that the text does not know; the second way round where the bigger side comes first.
FORWARD = re.compile(r"(?:^| )(?:- ?>|= ?>|< ?=|⊑|in|is|isa)(?: |$)")
BACKWARD = re.compile(r"> ?=|>")


def nearest(word, names):
    """The name that a misspelt word is nearest to, or None."""
    same = [name for name in names if name.lower() == word.lower()]
    return (same or difflib.get_close_matches(word, names, 1) or [None])[0]


def turned(words):
    """Things and predicate in another order: dev9 uplink dev7, dev7 Camera, uplink- dev7 dev9."""
    if len(words) in (2, 3):
        yield [words[1], words[0], *words[2:]]
    if len(words) == 3 and len(words[0]) > 1 and words[0].endswith("-"):
        yield [words[0][:-1], words[2], words[1]]


def with_some(words):
    """'some' put before a role, or left out."""
    first = 1 if words[0] == "disjoint" else 0
    for at in range(len(words) - 1, first - 1, -1):
        if words[at] == "some":
            yield words[:at] + words[at + 1 :]
        elif words[at - 1 : at] != ["some"]:
            yield words[:at] + ["some"] + words[at:]


def with_sign(words):
    """An inclusion with another sign, or with 'not' on its right."""
    line = " ".join(words)
    for sign, forward in ((FORWARD, True), (BACKWARD, False)):
        sides = [side.split() for side in sign.split(line)]
        if len(sides) == 2 and all(sides):
            left, right = sides if forward else reversed(sides)
            yield left + ["<"] + right
    if words.count("<") == 1 and words[words.index("<") + 1 :][:1] == ["not"]:
        at = words.index("<")
        yield ["disjoint"] + words[:at] + words[at + 2 :]


def rewritings(words):
    """Lines that a bad line may have been meant to be, the likeliest first."""
    plain = PUNCTUATION.sub(" ", " ".join(words)).split()
    if plain and plain != words:
        yield plain
        yield from turned(plain)
    yield from with_sign(words)
    yield from turned(words)
    yield from with_some(words)
    if len(words) == 2:
        yield [words[0], "<", words[1]]
