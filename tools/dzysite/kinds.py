"""What a site is, in numbers: limits, codes, rule kinds, refusals."""
from dataclasses import dataclass, field

# The limits of the format.
MOST_CONCEPTS = 64
MOST_ROLES = 32
MOST_RULES = 512
MOST_FACTS = 4096
MOST_NUMBER = 65535

# Codes: a basic concept from SOME on is "has some partner by q"; a predicate from SOME on is a role's.
SOME = 64

# Rule kinds.
INCLUDED, DISJOINT, ROLE_INCLUDED, ROLE_DISJOINT, FUNCTIONAL = range(5)

RULES, BUNDLE = 0, 1
SIDES = {RULES: "rules", BUNDLE: "bundle"}
ITEMS = {RULES: "rule", BUNDLE: "fact"}

# The item of a refusal that is in no rule and no fact.
NO_ITEM = 65535

# The refusal of bytes after the last item.
AFTER = 7

MEANINGS = {
    1: "the bytes end before a number that is due is complete",
    2: "a number of more than one byte whose last byte is 0",
    3: "a number with its top bit set on the third byte, or over 65,535",
    4: "a count over its limit",
    5: "a concept or role that is not declared",
    6: "a functional role stands on the right of a kind 2 rule",
    AFTER: "bytes after the last item",
    8: "a fact not above the one before it",
    11: "a rule kind over 4",
}

FILES = ("rules.bin", "bundle.bin", "names.txt")


@dataclass
class Site:
    """What a text says: names in the order of their numbers, rules in order, facts ascending."""

    concepts: list = field(default_factory=list)  # names
    roles: list = field(default_factory=list)  # names
    things: dict = field(default_factory=dict)  # number to name
    rules: list = field(default_factory=list)  # (kind, code, code), or (4, code)
    facts: list = field(default_factory=list)  # (predicate, subject, object); a concept's object is 0


def refusal_line(number, side, place):
    """A refusal as the cleaner prints it, which has no item."""
    return f"refused {number} in {SIDES[side]} at {place}"


class Refused(Exception):
    """A refusal of the bytes, as the cleaner gives it; `found` is what was unknown or too many, in words, or None."""

    def __init__(self, number, side, place, item=NO_ITEM, found=None):
        super().__init__(refusal_line(number, side, place))
        self.number, self.side, self.place, self.item, self.found = number, side, place, item, found

    def printed(self):
        """What of it stands in the cleaner's line."""
        return self.number, self.side, self.place

    def where(self):
        """The rule or fact at fault, or where outside of them."""
        word = ITEMS[self.side]
        if self.item != NO_ITEM:
            return f"in {word} {self.item}"
        return f"after the last {word}" if self.number == AFTER else "in the header"

    def told(self):
        """The refusal in words, for the author."""
        found = "" if self.found is None else f", found {self.found}"
        return f"{self}, {self.where()}: {MEANINGS[self.number]}{found}"


class Faults(Exception):
    """Messages for the author, each with its file and line."""

    def __init__(self, messages):
        super().__init__("\n".join(messages))
        self.messages = messages


class Fault(Exception):
    """What is wrong with one line, and what to write instead."""

    def __init__(self, message, hint=""):
        super().__init__(f"{message}; {hint}" if hint else message)
        self.message, self.hint = message, hint


def counted(count, word):
    """A count in words: 1 rule, 2 rules."""
    return f"{count:,} {word}" + ("" if count == 1 else "s")
