"""The definitions of document 01, read literally and slowly: what the documents' examples are held to.

It takes the readers of tools/site and adds what follows from the rules, marks, partners, answers and the room of lent
memory. Every operation gives its result or raises Refusal(number, side, place, item).
"""
import os
import sys

sys.dont_write_bytecode = True
ROOT = os.path.dirname(os.path.dirname(os.path.dirname(os.path.abspath(__file__))))
sys.path.insert(0, os.path.join(ROOT, "tools"))
from dzysite import files, kinds

CALL = 2
KEPT, ALONE, DISPUTED = 0, 1, 2
NO_PARTNER = 65535
NO_ITEM = 65535


class Refusal(Exception):
    def __init__(self, number, side, place, item=NO_ITEM):
        super().__init__(f"{number} {side} {place} {item}")
        self.four = (number, side, place, item)


def read(rules, bundle=None):
    """Concepts, roles, rules and facts; rules are judged before the bundle."""
    try:
        concepts, roles, rule_list = files.read_rules(rules)
        facts = None if bundle is None else files.read_bundle(bundle, concepts, roles)
    except kinds.Refused as refused:
        raise Refusal(*refused.printed(), refused.item) from None
    return concepts, roles, rule_list, facts


# nodes: basic concepts 0 to 127, basic roles 128+q


def inverse(q):
    return q ^ 1


def follows(concepts, roles, rules):
    """Included and excluded, by steps 1 to 8, as sets of pairs of nodes."""
    declared = list(range(concepts)) + [64 + q for q in range(2 * roles)] + [128 + q for q in range(2 * roles)]
    included = {(x, x) for x in declared}  # step 1
    excluded = set()
    for rule in rules:
        shift = 128 if rule[0] in (2, 3) else 0
        if rule[0] in (0, 2):
            included.add((rule[1] + shift, rule[2] + shift))
        if rule[0] in (1, 3):
            excluded.add((rule[1] + shift, rule[2] + shift))
    while True:
        new = {(x, z) for x, y in included for w, z in included if y == w}  # step 2
        for x, y in included:
            if x >= 128:
                new.add((128 + inverse(x - 128), 128 + inverse(y - 128)))  # step 3
                new.add((x - 64, y - 64))  # step 4
        if new <= included:
            break
        included |= new
    while True:
        new = {(y, x) for x, y in excluded}  # step 5
        new |= {(x, z) for x, y in included for w, z in excluded if y == w}  # step 6
        new |= {(128 + inverse(x - 128), 128 + inverse(y - 128)) for x, y in excluded if x >= 128}  # step 7
        for q in range(2 * roles):
            three = (128 + q, 64 + q, 64 + inverse(q))
            if any((x, x) in excluded for x in three):
                new |= {(x, x) for x in three}  # step 8
        if new <= excluded:
            break
        excluded |= new
    return included, excluded


def types(fact):
    """A node and where it holds: a thing, or an ordered pair."""
    predicate, a, b = fact
    if predicate < 64:
        return [(predicate, (a,))]
    q = 2 * (predicate - 64)
    return [(64 + q, (a,)), (64 + q + 1, (b,)), (128 + q, (a, b)), (128 + q + 1, (b, a))]


def jar(excluded, f, g):
    return any(p == r and (x, y) in excluded for x, p in types(f) for y, r in types(g))


def split(functional, f, g):
    pairs = [(x, p, r) for x, p in types(f) for y, r in types(g) if x == y and x >= 128]
    return any(x - 128 in functional and p[0] == r[0] and p[1] != r[1] for x, p, r in pairs)


def judge(concepts, roles, rules, facts):
    """The marks and the partners."""
    _, excluded = follows(concepts, roles, rules)
    functional = {rule[1] for rule in rules if rule[0] == 4}
    alone = [jar(excluded, f, f) for f in facts]
    marks, partners = [], []
    for k, f in enumerate(facts):
        clashes = [
            m
            for m, g in enumerate(facts)
            if not alone[k] and not alone[m] and (jar(excluded, f, g) or split(functional, f, g))
        ]
        marks.append(ALONE if alone[k] else DISPUTED if clashes else KEPT)
        partners.append(clashes[0] if clashes else NO_PARTNER)
    return marks, partners


def counts(facts, marks):
    return (len(facts), marks.count(KEPT), marks.count(ALONE), marks.count(DISPUTED))


# the operations


def check_rules(rules):
    return len(read(rules)[2])


def check_bundle(rules, bundle):
    return len(read(rules, bundle)[3])


def count(rules, bundle):
    *head, facts = read(rules, bundle)
    return counts(facts, judge(*head, facts)[0])


def mark(rules, bundle, marks_room, partners_room):
    *head, facts = read(rules, bundle)
    if marks_room < len(facts) or partners_room < len(facts):
        raise Refusal(9, CALL, 0)
    marks, partners = judge(*head, facts)
    return counts(facts, marks), marks, partners


def ask(rules, bundle, fact):
    *head, facts = read(rules, bundle)
    if fact >= len(facts):
        raise Refusal(10, CALL, 0)
    marks, partners = judge(*head, facts)
    return marks[fact], partners[fact]


def answer(head, facts, node, place):
    included, _ = follows(*head)
    marks, _ = judge(*head, facts)
    for k, f in enumerate(facts):
        if marks[k] == KEPT and any(p == place and (x, node) in included for x, p in types(f)):
            return k
    return None


def has(rules, bundle, code, thing):
    """The number of the fact that says yes, or None."""
    concepts, roles, rule_list, facts = read(rules, bundle)
    if not files.concept_known(concepts, roles, code):
        raise Refusal(5, CALL, 0)
    if thing > 65535:
        raise Refusal(3, CALL, 0)
    return answer((concepts, roles, rule_list), facts, code, (thing,))


def joins(rules, bundle, code, from_, to):
    concepts, roles, rule_list, facts = read(rules, bundle)
    if code >= 2 * roles:
        raise Refusal(5, CALL, 0)
    if from_ > 65535 or to > 65535:
        raise Refusal(3, CALL, 0)
    return answer((concepts, roles, rule_list), facts, 128 + code, (from_, to))


def bundle_of(facts):
    return files.write_bundle(kinds.Site(facts=facts))


def write_kept(rules, bundle, room):
    *head, facts = read(rules, bundle)
    marks, _ = judge(*head, facts)
    out = bundle_of([f for f, m in zip(facts, marks) if m == KEPT])
    if len(out) > room:
        raise Refusal(9, CALL, 0)
    return out


def write_records(rules, records, room):
    concepts, roles, _, _ = read(rules)
    if len(records) > 4096:
        raise Refusal(4, CALL, 0)
    last = None
    for k, (predicate, subject, object_) in enumerate(records):
        if not (predicate < concepts if predicate < 64 else predicate - 64 < roles):
            raise Refusal(5, CALL, k)
        if predicate < 64 and object_ != 0:
            raise Refusal(12, CALL, k)
        if subject > 65535 or object_ > 65535:
            raise Refusal(3, CALL, k)
        if last is not None and (predicate, subject, object_) <= last:
            raise Refusal(8, CALL, k)
        last = (predicate, subject, object_)
    out = bundle_of(records)
    if len(out) > room:
        raise Refusal(9, CALL, 0)
    return out


def give_records(rules, bundle, room):
    facts = read(rules, bundle)[3]
    if room < len(facts):
        raise Refusal(9, CALL, 0)
    return facts


def reader_start(rules, bundle):
    """The place after the count, where a reader starts."""
    return len(files.number_bytes(len(read(rules, bundle)[3])))


def reader_next(data, at):
    """What a reader yields at a place, a record or None once it is done, and its place afterwards; a refusal leaves it where it is."""
    if at >= len(data):
        return None, at
    try:
        predicate, after = files.number_at(data, at, 1)
        subject, after = files.number_at(data, after, 1)
        object_, after = (0, after) if predicate < 64 else files.number_at(data, after, 1)
    except kinds.Refused as refused:
        raise Refusal(*refused.printed()) from None
    return (predicate, subject, object_), after


def listing(rules, bundle):
    """What the program prints."""
    try:
        *head, facts = read(rules, bundle)
    except Refusal as refusal:
        number, side, place, _ = refusal.four
        return f"refused {number} in {('rules', 'bundle')[side]} at {place}\n"
    marks, partners = judge(*head, facts)
    lines = ["facts {} kept {} alone {} disputed {}".format(*counts(facts, marks))]
    for k, m in enumerate(marks):
        lines.append(f"{k} {('kept', 'alone', 'disputed')[m]}" + (f" {partners[k]}" if m == DISPUTED else ""))
    return "".join(line + "\n" for line in lines)
