"""The rules and facts that the lines of a text say."""
from .hints import rewritings
from .kinds import DISJOINT, FUNCTIONAL, INCLUDED, ROLE_DISJOINT, ROLE_INCLUDED, SOME, Fault
from .lines import END, found, shown
from .names import WORDS, judge_number

SIDE = "a concept, 'some ROLE' or a role"


class Statements:
    """The rules and facts that lines say, under the names declared."""

    def __init__(self, names):
        self.names = names

    def basic_role(self, word):
        """A role, or its inverse with - at the end: its code."""
        inverse = word.endswith("-")
        kind, number = self.names.look_up(word[:-1] if inverse else word, "a role", ("role",))
        if kind != "role":
            raise Fault(f"expected a role, found {shown(word)}, which is a {kind}" + (", and only a role has an inverse" if inverse else ""))
        return 2 * number + inverse

    @staticmethod
    def inverse(word):
        return word[:-1] if word.endswith("-") else word + "-"

    def side(self, words):
        """One side of a rule: its kind and its code, and the words after it."""
        if not words or words[0] in ("<", "="):
            raise Fault(f"expected {SIDE}, found {found(words[:1])}")
        if words[0] == "some":
            if len(words) == 1:
                raise Fault(f"expected a role after 'some', found {END}")
            return ("concept", SOME + self.basic_role(words[1])), words[2:]
        if not words[0].endswith("-"):
            kind, number = self.names.look_up(words[0], SIDE, ("concept", "role"))
            if kind == "concept":
                return (kind, number), words[1:]
            if kind == "thing":
                raise Fault(f"expected {SIDE}, found {shown(words[0])}, which is a thing", "a rule holds for all things, and names none")
        return ("role", self.basic_role(words[0])), words[1:]

    def two_sides(self, words, between, kinds):
        """Two sides of one kind, with a word between them or none: the rule."""
        left, rest = self.side(words)
        first = words[: len(words) - len(rest)]
        if between:
            if rest[:1] != [between]:
                raise Fault(f"expected '{between}', found {found(rest[:1])}")
            rest = rest[1:]
        right, after = self.side(rest)
        second = rest[: len(rest) - len(after)]
        if after and second[0] == "some":
            other_end = f"some {self.inverse(second[1])} < {' '.join(after)}"
            raise Fault(f"expected {END}, found {found(after)}", f"what {second[1]} leads to is said by a rule of its own: {shown(other_end)}")
        if after:
            raise Fault(f"expected {END}, found {found(after)}", "a rule has two sides: write a line for each two")
        if left[0] != right[0]:
            raise Fault(f"expected two sides of one kind, found the {left[0]} {found(first)} and the {right[0]} {found(second)}")
        return (kinds[0] if left[0] == "concept" else kinds[1], left[1], right[1])

    def rule(self, words):
        """The rule that a line says, or None if it is no rule's line."""
        if words[0] == "functional":
            if len(words) != 2:
                raise Fault(f"expected one role after 'functional', found {found(words[1:])}")
            return (FUNCTIONAL, self.basic_role(words[1]))
        if words[0] == "disjoint":
            return self.two_sides(words[1:], None, (DISJOINT, ROLE_DISJOINT))
        if "<" in words:
            return self.two_sides(words, "<", (INCLUDED, ROLE_INCLUDED))
        return None

    def thing(self, word):
        if word[0].isdigit() or word[0] in "+-.":
            return judge_number(word)
        kind, number = self.names.look_up(word, "a thing", ("thing",))
        if kind != "thing":
            raise Fault(f"expected a thing (its name or its number), found {shown(word)}, which is a {kind}")
        return number

    def fact(self, words):
        """The fact that a line says."""
        first, things = words[0], words[1:]
        if first == "some":
            raise Fault("expected a concept or a role first, found 'some'", "a fact of a role names both things: 'ROLE THING THING'")
        if first[0].isdigit():
            raise Fault(f"expected a concept or a role first, found the number {shown(first)}")
        if first.endswith("-"):
            raise Fault(f"expected a role forwards, found {shown(first)}: write the fact the other way round")
        due = ("concept",) if len(things) == 1 else ("role",) if len(things) == 2 else ("concept", "role")
        kind, number = self.names.look_up(first, "a declaration, a rule or a fact", due, WORDS)
        if kind == "thing":
            raise Fault(f"expected a concept or a role first, found {shown(first)}, which is a thing")
        places = 1 if kind == "concept" else 2
        if not things:
            raise Fault(f"expected {'a thing' if places == 1 else 'two things'} or '<' after {shown(first)}, found {END} (# starts a comment)")
        if len(things) != places:
            due = f"'{first}{' THING' * places}'"
            raise Fault(f"expected {places} thing{'s'[:places - 1]} after the {kind} {shown(first)}, found {len(things)}", f"write {due}, one fact a line")
        numbers = [self.thing(word) for word in things]
        return (number, numbers[0], 0) if kind == "concept" else (SOME + number, *numbers)

    def judge(self, words):
        """The rule and the fact that a line says: one of them, the other None."""
        for word in words:
            if ">" in word:
                raise Fault(f"expected '<', found {shown(word)}: what is included stands on the left")
            if any(c in word for c in "(),;"):
                raise Fault(f"expected words set apart by spaces, without commas or brackets, found {shown(word)}")
        if len(words) == 3 and words[1] == "=" and words[2].isdigit() and words[0] not in self.names.by_name:
            raise Fault(f"expected a declaration, a rule or a fact, found {found(words)}", f"did you mean 'thing {' '.join(words)}'?")
        if "=" in words and "<" not in words:
            raise Fault("expected '=' only after a name that is declared, as in 'thing NAME = NUMBER'", "an inclusion is written 'B1 < B2'")
        rule = self.rule(words)
        return (rule, None) if rule else (None, self.fact(words))

    def suggest(self, words):
        """A line that would be accepted and that this one may have been meant to be, as a hint."""
        self.names.hinting = False
        for other in rewritings(words):
            try:
                self.judge(other)
                return f"did you mean '{' '.join(other)}'?"
            except Fault:
                pass
        return ""
