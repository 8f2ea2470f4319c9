"""A checker of explanations, independent of the tool: it reads the printed lines and the site's own lines, and knows document 01's steps.

Each line must be a line of the site. What it says must follow from what was said before it: a fact gives its types; an inclusion carries a type
over to its right side (rule, steps 2, 3, 4); a disjointness or functional rule ends the chain (steps 5, 6, 7). A sentence "but nothing is X, since
nothing is Y:" is step 8, and Y must then be shown to exclude itself. Codes are words here, as the text writes them.
"""
import re


class Bad(Exception):
    pass


def need(true, what):
    if not true:
        raise Bad(what)


def inverse(role):
    return role[:-1] if role.endswith("-") else role + "-"


def split_sides(words):
    """The codes of a row of words: 'some' and its role are one."""
    sides, at = [], 0
    while at < len(words):
        size = 2 if words[at] == "some" else 1
        sides.append(" ".join(words[at : at + size]))
        at += size
    return sides


class Site:
    """What the checker knows of a site: its roles, its things' names, and its lines, each by where it stands."""

    def __init__(self, lines, roles, things):
        self.lines = lines  # where to words
        self.roles = set(roles)
        self.things = things  # number, as a word, to name

    def is_role(self, code):
        return code.rstrip("-") in self.roles

    def named(self, thing):
        return self.things.get(thing, thing)

    def types(self, words):
        """The types of a fact: each a code and its thing or pair."""
        a, b = self.named(words[1]), self.named(words[-1])
        if not self.is_role(words[0]):
            return {(words[0], (a,))}
        role = words[0]
        return {(f"some {role}", (a,)), (f"some {role}-", (b,)), (role, (a, b)), (f"{role}-", (b, a))}

    def carried(self, code, left, right):
        """Where an inclusion of the site carries a code: itself, and for roles its inverse form and both ends (steps 3 and 4)."""
        forms = {(left, right)}
        if self.is_role(left):
            forms |= {(inverse(left), inverse(right))}
            forms |= {(f"some {q}", f"some {r}") for q, r in set(forms)}
        return {r for q, r in forms if q == code}

    def excludes(self, one, other, left, right):
        """Whether a disjointness rule says it of two codes: either way round (step 5), and for roles of the inverses too (step 7)."""
        forms = {(left, right), (right, left)}
        if self.is_role(left):
            forms |= {(inverse(q), inverse(r)) for q, r in forms}
        return (one, other) in forms

    def mates(self, one, other):
        """Whether one set {q, some q, some (inverse of q)} holds both codes (step 8)."""
        of = lambda q: {q, f"some {q}", f"some {inverse(q)}"}
        return any({one, other} <= of(q) for role in self.roles for q in (role, role + "-"))


class Chain:
    """An explanation being checked."""

    def __init__(self, site, fact, partner):
        self.site = site
        self.due = [fact.split(), partner.split() if partner else None]
        self.known = []  # (code, place, which fact it comes from)
        self.used = set()
        self.ended = False

    def claim(self, text):
        """The code and the place of 'some uplink- dev7', 'uplink- dev7 dev9', or of a code alone."""
        words = text.split()
        size = 2 if words[0] == "some" else 1
        return " ".join(words[:size]), tuple(words[size:])

    def take(self, text, whence):
        code, place = self.claim(text)
        self.known.append((code, place, whence))

    def fact(self, words, says):
        named = [words[0]] + [self.site.named(w) for w in words[1:]]
        need(named in self.due, f"{named} is neither the fact nor its partner")
        says = says or " ".join(words)
        need(self.claim(says) in self.site.types(words), f"{says} is no type of {words}")
        self.take(says, self.due.index(named))

    def inclusion(self, words, says):
        left, right = (" ".join(side.split()) for side in " ".join(words).split(" < "))
        code, place = self.claim(says)
        for before, at, whence in reversed(self.known):
            if at == place and code in self.site.carried(before, left, right):
                self.used.add((before, at, whence))
                self.known.append((code, place, whence))
                return
        raise Bad(f"{says} follows from nothing before it by {words}")

    def last(self, words, says):
        need(not self.ended, "an end after the end")
        self.ended = True
        never = re.fullmatch("never (.*)", says)
        both = [never[1], never[1]] if never else re.fullmatch("not both (.*) and (.*)", says).groups()
        (one, at), (other, there) = (self.claim(text) for text in both)
        whences = [{w for code, place, w in self.known if (code, place) == (c, p)} for c, p in ((one, at), (other, there))]
        need(all(whences), f"{both} are not both shown")
        if self.due[1]:
            need(0 in whences[0] and 1 in whences[1], "the two sides are not of the fact and its partner")
        self.used |= {k for k in self.known if k[:2] in ((one, at), (other, there))}
        if words[0] == "functional":
            need(one == other == words[1] and self.due[1] and at[0] == there[0] and at[1] != there[1], f"{words} is not hit")
        else:
            need(at == there and self.site.excludes(one, other, *split_sides(words[1:])), f"{words} does not exclude {both}")

    def step8(self, empty, since):
        need(self.due[1] is None, "a fact that is disputed has no empty type")
        need(self.known and self.known[-1][0] == empty, f"{empty} was not reached")
        need(empty != since and self.site.mates(empty, since), f"{since} does not empty {empty}")
        self.used.add(self.known[-1])
        self.unused()
        self.known, self.used = [(since, (), 0)], {(since, (), 0)}

    def unused(self):
        need(set(self.known) <= self.used, f"shown for nothing: {set(self.known) - self.used}")

    def line(self, line):
        sentence = re.fullmatch(r"but (.*), since (.*):", line)
        if sentence:
            codes = [re.fullmatch("nothing is (.*)|(.*) joins nothing", part) for part in sentence.groups()]
            return self.step8(*(code[1] or code[2] for code in codes))
        where, words, says = re.fullmatch(r"((?:line|rule|fact) [0-9]+): (.*?)(?: +so (.*))?", line).groups()
        words = words.split()
        need(self.site.lines.get(where) == words, f"{where} does not read {words}")
        if words[0] in ("disjoint", "functional"):
            return self.last(words, says)
        return self.inclusion(words, says) if "<" in words else self.fact(words, says)


def check(site, text):
    """Raises Bad if an explanation is not a chain of the site's lines by document 01's steps. Gives its mark and the steps of kind 8."""
    head, *lines = text.rstrip("\n").split("\n")
    fact, mark, partner = re.fullmatch(r"[0-9]+ (.*): (kept|alone|disputed)(?:, partner [0-9]+ (.*))?", head).groups()
    if mark == "kept":
        need(len(lines) == 1 and lines[0].startswith("nothing disputes it"), "a kept fact has no chain")
        return mark, 0
    need((partner is not None) == (mark == "disputed"), "a partner of a fact that is alone, or none of one that is disputed")
    chain = Chain(site, fact, partner)
    for line in lines:
        chain.line(line)
    need(chain.ended, "the chain does not end at an exclusion or a functional rule")
    chain.unused()
    return mark, sum(line.startswith("but ") for line in lines)


def site_of_text(text):
    """The checker's own reading of a text that is known to be good."""
    lines, roles, things = {}, [], {}
    for number, line in enumerate(text.split("\n"), 1):
        words = line.split("#")[0].replace("<", " < ").replace("=", " = ").split()
        if words[:1] == ["role"]:
            roles.append(words[1])
        elif words[:1] == ["thing"]:
            things[words[3]] = words[1]
        elif words and words[0] != "concept":
            lines[f"line {number}"] = words
    return Site(lines, roles, things)


def site_of_show(shown):
    """The same of what `show` prints, with rules and facts by their numbers."""
    site = site_of_text(shown)
    rules = [words for words in site.lines.values() if words[0] in ("disjoint", "functional") or "<" in words]
    facts = [words for words in site.lines.values() if words not in rules]
    site.lines = {f"{kind} {k}": words for kind, row in (("rule", rules), ("fact", facts)) for k, words in enumerate(row)}
    return site
