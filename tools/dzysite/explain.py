"""Why a fact is dropped, as a chain of lines: facts and rules as they stand in the text, and what follows from each."""
from dataclasses import dataclass

from .follows import ROLE, Meeting
from .kinds import Fault
from .listing import KEPT, judged_text
from .reasons import types_of
from .words import basic_concept_text, basic_role_text, fact_text, rule_text, thing_text

KEPT_WORDS = "nothing disputes it: the rules forbid it neither by itself nor beside a fact that is not alone"


@dataclass
class Quotes:
    """Where each rule and each fact stands, and its words there."""

    rules: list  # (where, words)
    facts: list  # (where, words)


def quotes_of_text(reading):
    """The quotes of a text that was read: the words of its lines."""
    rules = reading.rule_lines
    facts = [reading.fact_lines[fact] for fact in reading.site.facts]
    return Quotes(*([(f"line {line}", " ".join(words)) for line, words in row] for row in (rules, facts)))


def quotes_of_files(site):
    """The quotes of files without a text: rules and facts by their numbers, as `show` prints them."""
    return Quotes(
        [(f"rule {k}", rule_text(site, rule)) for k, rule in enumerate(site.rules)],
        [(f"fact {k}", fact_text(site, fact)) for k, fact in enumerate(site.facts)],
    )


class Chain:
    """The lines of an explanation, in order: a quote and what follows from it, or a sentence by itself."""

    def __init__(self, site, follows, quotes):
        self.site, self.follows, self.quotes = site, follows, quotes
        self.lines = []  # (quote, what follows), or (sentence, None)
        self.start = 0  # the first line after the last sentence

    def code_text(self, code):
        return basic_role_text(self.site, code - ROLE) if code >= ROLE else basic_concept_text(self.site, code)

    def said(self, code, place):
        """A code of a thing or a pair, or of no thing in particular."""
        return " ".join([self.code_text(code)] + [thing_text(self.site, thing) for thing in place])

    def add(self, quote, follows):
        where, words = quote
        line = f"{where}: {words}", "" if follows == words else f"so {follows}"
        if line not in self.lines[self.start :]:  # two ways from one code may begin alike
            self.lines.append(line)

    def add_sentence(self, sentence):
        self.lines.append((sentence, None))
        self.start = len(self.lines)

    def add_fact(self, number, code, place):
        self.add(self.quotes.facts[number], self.said(code, place))

    def add_way(self, way, place):
        for rule, code in way.rules:
            self.add(self.quotes.rules[rule], self.said(code, place))

    def add_end(self, rule, left, right):
        self.add(self.quotes.rules[rule], f"never {left}" if left == right else f"not both {left} and {right}")

    def add_emptiness(self, emptied, place):
        """The chain by which a code is empty (step 8): each of a role's ends and the role itself is empty if one of them is."""
        self.add_way(emptied.way, place)
        self.add_sentence(f"but {self.nothing(emptied.way.end)}, since {self.nothing(emptied.mate)}:")
        self.add_reason(self.follows.empty[emptied.mate][1])

    def nothing(self, code):
        return f"{self.code_text(code)} joins nothing" if code >= ROLE else f"nothing is {self.code_text(code)}"

    def add_reason(self, reason):
        """How a code excludes itself, for no thing in particular."""
        if isinstance(reason, Meeting):
            self.add_way(reason.left, ())
            self.add_way(reason.right, ())
            self.add_end(reason.rule, self.said(reason.left.end, ()), self.said(reason.right.end, ()))
        else:
            self.add_emptiness(reason, ())

    def add_why(self, number, partner, why):
        """Why a fact is dropped: alone, or beside its partner."""
        numbers = number, number if partner is None else partner
        if why.functional is not None:
            sides = [self.joined(why.functional, one) for one in numbers]
            for one, place in zip(numbers, sides):
                self.add_fact(one, ROLE + why.functional, place)
            self.add_end(self.follows.functional[why.functional], *(self.said(ROLE + why.functional, place) for place in sides))
        elif isinstance(why.reason, Meeting):
            for one, way in zip(numbers, (why.reason.left, why.reason.right)):
                self.add_fact(one, way.start, why.place)
                self.add_way(way, why.place)
            self.add_end(why.reason.rule, *(self.said(way.end, why.place) for way in (why.reason.left, why.reason.right)))
        else:
            self.add_fact(number, why.reason.way.start, why.place)
            self.add_emptiness(why.reason, why.place)

    def joined(self, q, number):
        """The pair that a fact joins by q."""
        return dict(types_of(self.site.facts[number]))[ROLE + q]

    def text(self):
        wide = max(len(quote) for quote, follows in self.lines if follows is not None)
        rows = [quote if follows is None else f"{quote:{wide}}  {follows}" for quote, follows in self.lines]
        return "".join(row.rstrip() + "\n" for row in rows)


def explain(judge, quotes, number, mark, partner):
    """Why the program gives a fact this mark and partner; Fault if the rules give another."""
    site = judge.site
    own_mark, own_partner, why = judge.judge(number)
    says = judged_text(site, number, mark, partner)
    if (own_mark, own_partner) != (mark, partner):
        own = judged_text(site, number, own_mark, own_partner)
        raise Fault(f"the program says '{says}', and by the rules it is '{own}'; one of the two is wrong, and not the site: please report it")
    if own_mark == KEPT:
        return f"{says}\n{KEPT_WORDS}\n"
    chain = Chain(site, judge.follows, quotes)
    chain.add_why(number, partner, why)
    return f"{says}\n{chain.text()}"
