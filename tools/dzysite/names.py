"""Names and numbers as words of a text, and names.txt, the list that gives names to numbers."""
import re

from .kinds import MOST_NUMBER, Fault, Faults
from .lines import lines_of, shown

WORDS = ("concept", "role", "thing", "some", "disjoint", "functional")
NAME = re.compile(r"[A-Za-z_](?:[A-Za-z0-9_.-]*[A-Za-z0-9_.])?")
NUMBER = re.compile(r"0|[1-9][0-9]*")
NAME_RULE = "a letter or _, then letters, digits, _ . - , not ending in -"


def judge_name(word):
    if word in WORDS:
        raise Fault(f"expected a name, found {shown(word)}, which is a word of the text's own", "take another name")
    if not NAME.fullmatch(word):
        raise Fault(f"expected a name ({NAME_RULE}), found {shown(word)}")
    return word


def judge_number(word):
    if re.fullmatch("0[0-9]+", word):
        raise Fault(f"expected a number without leading zeros, found {shown(word)}", f"write {shown(word.lstrip('0') or '0')}")
    if not NUMBER.fullmatch(word):
        raise Fault(f"expected a number, 0 to {MOST_NUMBER:,} in decimal, found {shown(word)}")
    if len(word) > 5 or int(word) > MOST_NUMBER:
        raise Fault(f"expected a number to {MOST_NUMBER:,}, found {shown(word)}")
    return int(word)


def write_names(site):
    """The name list: a line for each name, by kind and then by number."""
    lines = [f"concept {i} {name}" for i, name in enumerate(site.concepts)]
    lines += [f"role {j} {name}" for j, name in enumerate(site.roles)]
    lines += [f"thing {n} {site.things[n]}" for n in sorted(site.things)]
    return "".join(line + "\n" for line in lines)


def read_names(text, file, concepts, roles):
    """The names of a list, by kind and number. Each name and each number of a kind stands once."""
    limits = {"concept": concepts, "role": roles, "thing": MOST_NUMBER + 1}
    names = {kind: {} for kind in limits}
    used, faults = {}, []
    for line, words in lines_of(text):
        try:
            if len(words) != 3 or words[0] not in limits:
                raise Fault("expected 'concept', 'role' or 'thing', a number and a name", "such as 'thing 7 dev7'")
            kind, number, name = words[0], judge_number(words[1]), judge_name(words[2])
            if number >= limits[kind]:
                raise Fault(f"expected a {kind} of rules.bin, which declares {limits[kind]}, found {number}")
            if number in names[kind]:
                raise Fault(f"{kind} {number} already has the name {shown(names[kind][number])}")
            if name in used:
                raise Fault(f"the name {shown(name)} already stands in line {used[name]}")
            names[kind][number] = name
            used[name] = line
        except Fault as fault:
            faults.append(f"{file}:{line}: {fault}")
    if faults:
        raise Faults(faults)
    return names


def name_all(names, kind, letter, count):
    """A name for each number below count; where the list has none, the kind's letter and the number."""
    taken = {name for of_kind in names.values() for name in of_kind.values()}
    out = []
    for number in range(count):
        name = names[kind].get(number)
        if name is None:
            name = f"{letter}{number}"
            while name in taken:
                name += "_"
            taken.add(name)
        out.append(name)
    return out
