"""Numbers, rule files and bundles, in bytes: read as the cleaner reads them, and written. docs/FORMAT.md."""
from .kinds import (
    AFTER,
    BUNDLE,
    DISJOINT,
    FUNCTIONAL,
    INCLUDED,
    MOST_CONCEPTS,
    MOST_FACTS,
    MOST_NUMBER,
    MOST_ROLES,
    MOST_RULES,
    NO_ITEM,
    ROLE_INCLUDED,
    RULES,
    SOME,
    Refused,
)


def number_bytes(value):
    """The bytes of a number, in the shortest form."""
    out = bytearray()
    while value >= 128:
        out.append(value % 128 + 128)
        value //= 128
    out.append(value)
    return bytes(out)


def number_at(data, at, side, item=NO_ITEM):
    """The number at a place, of an item or of none, and the place after it; or its refusal."""
    value = 0
    for size in range(3):
        if at + size >= len(data):
            raise Refused(1, side, at, item)
        byte = data[at + size]
        value += byte % 128 << 7 * size
        if byte < 128:
            if size > 0 and byte == 0:
                raise Refused(2, side, at, item)
            if value > MOST_NUMBER:
                raise Refused(3, side, at, item)
            return value, at + size + 1
    raise Refused(3, side, at, item)


def count_at(data, at, limit, side):
    value, after = number_at(data, at, side)
    if value > limit:
        raise Refused(4, side, at, found=f"{value}; the limit is {limit}")
    return value, after


def kind_at(data, at, item):
    kind, after = number_at(data, at, RULES, item)
    if kind > FUNCTIONAL:
        raise Refused(11, RULES, at, item, kind)
    return kind, after


def code_at(data, at, known, side, item):
    value, after = number_at(data, at, side, item)
    if not known(value):
        raise Refused(5, side, at, item, f"the code {value}")
    return value, after


def concept_known(concepts, roles, code):
    return code < concepts if code < SOME else (code - SOME) // 2 < roles


def read_rules(data):
    """The numbers of concepts and roles, and the rules; or the refusal of the rule file."""
    concepts, at = count_at(data, 0, MOST_CONCEPTS, RULES)
    roles, at = count_at(data, at, MOST_ROLES, RULES)
    count, at = count_at(data, at, MOST_RULES, RULES)
    rules, places = [], []
    for item in range(count):
        places.append(at)
        kind, at = kind_at(data, at, item)
        if kind in (INCLUDED, DISJOINT):
            known = lambda code: concept_known(concepts, roles, code)
        else:
            known = lambda code: code // 2 < roles
        rule = [kind]
        for _ in range(1 if kind == FUNCTIONAL else 2):
            code, at = code_at(data, at, known, RULES, item)
            rule.append(code)
        rules.append(tuple(rule))
    if at < len(data):
        raise Refused(AFTER, RULES, at)
    for item, (rule, place) in enumerate(zip(rules, places)):
        right = right_of(rules, rule[1]) if rule[0] == FUNCTIONAL else None
        if right is not None:
            raise Refused(6, RULES, place, item, f"rule {right}")
    return concepts, roles, rules


def right_of(rules, q):
    """The number of the first kind 2 rule that has q or its inverse on its right, or None."""
    for k, rule in enumerate(rules):
        if rule[0] == ROLE_INCLUDED and rule[2] // 2 == q // 2:
            return k
    return None


def read_bundle(data, concepts, roles):
    """The facts, or the refusal of the bundle under accepted rules."""
    known = lambda p: p < concepts if p < SOME else p - SOME < roles
    count, at = count_at(data, 0, MOST_FACTS, BUNDLE)
    facts = []
    for item in range(count):
        place = at
        predicate, at = code_at(data, at, known, BUNDLE, item)
        subject, at = number_at(data, at, BUNDLE, item)
        object_ = 0
        if predicate >= SOME:
            object_, at = number_at(data, at, BUNDLE, item)
        fact = (predicate, subject, object_)
        if facts and fact <= facts[-1]:
            raise Refused(8, BUNDLE, place, item)
        facts.append(fact)
    if at < len(data):
        raise Refused(AFTER, BUNDLE, at)
    return facts


def numbers_bytes(numbers):
    return b"".join(map(number_bytes, numbers))


def header_and_items(site, side):
    """The bytes of a file's counts, and of each of its rules or facts."""
    if side == RULES:
        return numbers_bytes([len(site.concepts), len(site.roles), len(site.rules)]), list(map(numbers_bytes, site.rules))
    return number_bytes(len(site.facts)), [numbers_bytes(fact[:2] if fact[0] < SOME else fact) for fact in site.facts]


def write_rules(site):
    header, items = header_and_items(site, RULES)
    return header + b"".join(items)


def write_bundle(site):
    header, items = header_and_items(site, BUNDLE)
    return header + b"".join(items)


def item_at(site, side, place):
    """The number of the rule or fact that has a byte of a site's file, or NO_ITEM in the header and after the last."""
    header, items = header_and_items(site, side)
    end = len(header)
    if place < end:
        return NO_ITEM
    for number, item in enumerate(items):
        end += len(item)
        if place < end:
            return number
    return NO_ITEM
