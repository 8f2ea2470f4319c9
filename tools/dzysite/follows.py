"""What follows from the rules by document 01's steps 1 to 8, and by which rules: the shortest way there.

A code here is a basic concept's, or ROLE + q for the basic role q. Steps 1 to 4: X is in Y exactly if a way leads from X to Y, rule by rule.
Steps 5 to 7: X and Z exclude each other if ways from them lead to the two sides of a disjointness rule. Step 8: a code that excludes itself is
empty, and empties what shares a role with it; whatever has a way to an empty code is empty too.
"""
import heapq
from collections import deque
from dataclasses import dataclass
from itertools import count

from .kinds import DISJOINT, FUNCTIONAL, INCLUDED, ROLE_DISJOINT, ROLE_INCLUDED, SOME

ROLE = 128


@dataclass(frozen=True)
class Way:
    """From a code to one that includes it: the rules in order, each with the code it leads to."""

    start: int
    rules: tuple  # (rule, code)

    @property
    def end(self):
        return self.rules[-1][1] if self.rules else self.start


@dataclass(frozen=True)
class Meeting:
    """Two ways that end at the two sides of a disjointness rule."""

    left: Way
    right: Way
    rule: int


@dataclass(frozen=True)
class Emptied:
    """A way that ends at a code which is empty since another one of its role is (step 8)."""

    way: Way
    mate: int


def both_directions(code, other):
    """Two basic roles, and their inverses (steps 3 and 7), as codes."""
    return (ROLE + code, ROLE + other), (ROLE + (code ^ 1), ROLE + (other ^ 1))


def mates_of(code):
    """The codes that step 8 empties with this one: of q, 64+q and 64+(inverse of q) the others."""
    if code < SOME:
        return ()
    q = (code - SOME) % 64
    if code >= ROLE:
        return SOME + q, SOME + (q ^ 1)
    return SOME + (q ^ 1), ROLE + q, ROLE + (q ^ 1)


class Follows:
    """The ways, exclusions and empty codes of a site's rules."""

    def __init__(self, site):
        self.codes = list(range(len(site.concepts)))
        self.codes += [base + q for base in (SOME, ROLE) for q in range(2 * len(site.roles))]
        self.above = {code: [] for code in self.codes}  # code to (rule, code that includes it)
        self.apart = []  # (rule, code, code)
        self.functional = {}  # q to rule
        for number, rule in enumerate(site.rules):
            self.take(number, *rule)
        self.reached = {code: self.reach(code) for code in self.codes}
        self.meetings = {}
        self.empty = self.find_empty()

    def take(self, number, kind, code, other=None):
        """One rule, with its forms by steps 3, 4 and 7."""
        if kind == INCLUDED:
            self.above[code].append((number, other))
        elif kind == DISJOINT:
            self.apart.append((number, code, other))
        elif kind == ROLE_INCLUDED:
            for q, r in both_directions(code, other):
                self.above[q].append((number, r))
                self.above[q - SOME].append((number, r - SOME))
        elif kind == ROLE_DISJOINT:
            self.apart += [(number, q, r) for q, r in both_directions(code, other)]
        elif kind == FUNCTIONAL:
            self.functional.setdefault(code, number)

    def reach(self, start):
        """Each code with a way from the start: the way's length, its last rule and the code before it."""
        reached, waiting = {start: (0, None, None)}, deque([start])
        while waiting:
            code = waiting.popleft()
            for rule, above in self.above[code]:
                if above not in reached:
                    reached[above] = (reached[code][0] + 1, rule, code)
                    waiting.append(above)
        return reached

    def way(self, start, end):
        """The shortest way from one code to another that it reaches."""
        rules = []
        while end != start:
            _, rule, before = self.reached[start][end]
            rules.append((rule, end))
            end = before
        return Way(start, tuple(reversed(rules)))

    def meet(self, left, right):
        """The shortest meeting of two codes at a disjointness rule, with its length; None if there is none."""
        if (left, right) not in self.meetings:
            lefts, rights = self.reached[left], self.reached[right]
            best = None
            for rule, code, other in self.apart:
                for x, z in ((code, other), (other, code)):  # step 5
                    if x in lefts and z in rights:
                        length = lefts[x][0] + rights[z][0] + 1
                        if best is None or length < best[0]:
                            best = (length, x, z, rule)
            self.meetings[left, right] = best and (best[0], Meeting(self.way(left, best[1]), self.way(right, best[2]), best[3]))
        return self.meetings[left, right]

    def find_empty(self):
        """The codes that exclude themselves, each with the length of its shortest reason and the reason; shorter ones are found first."""
        empty, order = {}, count()
        waiting = [(met[0], next(order), code, met[1]) for code in self.codes if (met := self.meet(code, code))]
        heapq.heapify(waiting)
        while waiting:
            length, _, code, reason = heapq.heappop(waiting)
            if code not in empty:
                empty[code] = (length, reason)
                for longer, start, by in self.emptied_by(code, length):
                    if start not in empty:
                        heapq.heappush(waiting, (longer, next(order), start, by))
        return empty

    def emptied_by(self, mate, length):
        """What step 8 empties with a code, and what has a way there, each with its length and reason."""
        for code in mates_of(mate):
            for start in self.codes:
                if code in self.reached[start]:
                    yield length + self.reached[start][code][0] + 1, start, Emptied(self.way(start, code), mate)
