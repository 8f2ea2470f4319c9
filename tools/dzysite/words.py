"""A site in the words of its text: rules, facts, the whole."""
from .kinds import DISJOINT, FUNCTIONAL, INCLUDED, ROLE_INCLUDED, SOME, counted


def basic_role_text(site, q):
    return site.roles[q // 2] + "-" * (q % 2)


def basic_concept_text(site, code):
    return site.concepts[code] if code < SOME else "some " + basic_role_text(site, code - SOME)


def rule_text(site, rule):
    kind = rule[0]
    side = basic_concept_text if kind in (INCLUDED, DISJOINT) else basic_role_text
    words = [side(site, code) for code in rule[1:]]
    if kind == FUNCTIONAL:
        return f"functional {words[0]}"
    if kind in (INCLUDED, ROLE_INCLUDED):
        return f"{words[0]} < {words[1]}"
    return f"disjoint {words[0]} {words[1]}"


def thing_text(site, number):
    return site.things.get(number, str(number))


def fact_text(site, fact):
    predicate, subject, object_ = fact
    if predicate < SOME:
        return f"{site.concepts[predicate]} {thing_text(site, subject)}"
    return f"{site.roles[predicate - SOME]} {thing_text(site, subject)} {thing_text(site, object_)}"


def summary(site):
    """How much a site holds."""
    return ", ".join(
        (
            counted(len(site.concepts), "concept"),
            counted(len(site.roles), "role"),
            counted(len(site.things), "named thing"),
            counted(len(site.rules), "rule"),
            counted(len(site.facts), "fact"),
        )
    )


def write_text(site):
    """The text of a site: concepts, roles, things, rules and facts, in the order of their numbers."""
    parts = [
        ("concept", [f"concept {name}" for name in site.concepts]),
        ("role", [f"role {name}" for name in site.roles]),
        ("named thing", [f"thing {site.things[n]} = {n}" for n in sorted(site.things)]),
        ("rule", [rule_text(site, rule) for rule in site.rules]),
        ("fact", [fact_text(site, fact) for fact in site.facts]),
    ]
    return "\n".join(
        f"# {counted(len(lines), word)}\n" + "".join(line + "\n" for line in lines) for word, lines in parts
    )
