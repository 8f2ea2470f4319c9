"""Marks, partners and reasons, worked out from the rules alone by document 01's steps, so that they can be held to the program's."""
from dataclasses import dataclass

from .follows import ROLE, Follows
from .kinds import SOME
from .listing import ALONE, DISPUTED, KEPT


def types_of(fact):
    """A fact's types: each a code, and the thing or the ordered pair that it is of."""
    predicate, a, b = fact
    if predicate < SOME:
        return [(predicate, (a,))]
    q = 2 * (predicate - SOME)
    return [(SOME + q, (a,)), (SOME + q + 1, (b,)), (ROLE + q, (a, b)), (ROLE + q + 1, (b, a))]


@dataclass
class Why:
    """The reason to drop a fact: where two types meet and how they exclude each other, or the functional q that joins one thing to two."""

    place: tuple = ()
    reason: object = None  # Meeting or Emptied
    functional: int = None


class Judge:
    """Marks, partners and reasons of a site's facts."""

    def __init__(self, site):
        self.site = site
        self.follows = Follows(site)
        self.alone = {}  # predicate and whether a fact of it is a loop, to whether the fact is alone

    def why_alone(self, fact):
        """Why the rules forbid a fact by itself, or None."""
        types, best = types_of(fact), None
        for k, (x, place) in enumerate(types):
            for z, other in types[k:]:
                found = self.follows.empty.get(x) if x == z else self.follows.meet(x, z)
                if place == other and found and (best is None or found[0] < best[0]):
                    best = (found[0], Why(place, found[1]))
        return best and best[1]

    def is_alone(self, fact):
        predicate, a, b = fact
        key = predicate, predicate >= SOME and a == b
        if key not in self.alone:
            self.alone[key] = self.why_alone(fact) is not None
        return self.alone[key]

    def why_clash(self, fact, other):
        """Why the rules forbid two facts together, neither of them alone, or None."""
        best = None
        for x, place in types_of(fact):
            for z, other_place in types_of(other):
                found = self.follows.meet(x, z) if place == other_place else None
                if found and (best is None or found[0] < best[0]):
                    best = (found[0], Why(place, found[1]))
        if best is None or best[0] > 1:
            q = self.split(fact, other)
            if q is not None:
                return Why(functional=q)
        return best and best[1]

    def split(self, fact, other):
        """A functional q that joins one thing to two different things by the two facts, or None."""
        for x, place in types_of(fact):
            for z, other_place in types_of(other):
                if x == z and x - ROLE in self.follows.functional and place[0] == other_place[0] and place[1] != other_place[1]:
                    return x - ROLE
        return None

    def judge(self, number):
        """A fact's mark, its partner or None, and why it is dropped or None."""
        fact = self.site.facts[number]
        if self.is_alone(fact):
            return ALONE, None, self.why_alone(fact)
        for partner, other in enumerate(self.site.facts):
            why = None if self.is_alone(other) else self.why_clash(fact, other)
            if why:
                return DISPUTED, partner, why
        return KEPT, None, None
