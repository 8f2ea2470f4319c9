"""The declarations of a text: the names of concepts, roles and things."""
from .hints import nearest
from .kinds import MOST_CONCEPTS, MOST_ROLES, Fault
from .lines import END, found, shown
from .names import judge_name, judge_number

DECLARING = ("concept", "role", "thing")


class Names:
    """The names that a text declares."""

    def __init__(self, site):
        self.site = site
        self.by_name = {}  # name to (kind, number, line)
        self.hinting = True  # whether a fault names the nearest name, which takes a while

    def declare(self, line, words):
        kind, rest = words[0], words[1:]
        if not rest:
            raise Fault(f"expected a name after '{kind}', found {END}")
        if any("," in word for word in rest):
            raise Fault(f"expected one name, found {found(rest)}", f"write each {kind} on a line of its own, without commas")
        name = judge_name(rest[0])
        number = None
        if len(rest) > 1:
            if rest[1] != "=" or len(rest) != 3:
                due = f"'thing {name} = NUMBER'" if kind == "thing" else f"'{kind} {name}', one name a line"
                raise Fault(f"expected '= NUMBER' or {END} after {shown(name)}, found {found(rest[1:])}", f"write {due}")
            number = judge_number(rest[2])
        if name in self.by_name:
            old, _, where = self.by_name[name]
            raise Fault(f"expected a new name, found {shown(name)}, a {old} since line {where}", "take another name")
        new = self.new_thing if kind == "thing" else self.new_code
        self.by_name[name] = (kind, new(kind, name, number), line)

    def new_thing(self, _, name, number):
        if number is None:
            raise Fault(f"expected '= NUMBER' after 'thing {name}': a thing's number is its device number")
        if number in self.site.things:
            old = shown(self.site.things[number])
            raise Fault(f"expected a number without a name, found {number}, which is {old}", f"use {old}, or another number")
        self.site.things[number] = name
        return number

    def new_code(self, kind, name, number):
        row, limit = (self.site.concepts, MOST_CONCEPTS) if kind == "concept" else (self.site.roles, MOST_ROLES)
        if len(row) == limit:
            raise Fault(f"expected at most {limit} {kind}s, found one more")
        if number is not None and number != len(row):
            raise Fault(f"expected {len(row)}, the number that this {kind} gets by its order, found {number}", f"leave '= {number}' out")
        row.append(name)
        return len(row) - 1

    def look_up(self, name, what, kinds, own=()):
        """The kind and number of a declared name; the nearest one of the kinds due is the hint."""
        judge_name(name)
        if name in self.by_name:
            return self.by_name[name][:2]
        due = [n for n, (kind, _, _) in self.by_name.items() if kind in kinds] + list(own)
        near = nearest(name, due) if self.hinting else None
        declare = "declare it: " + " or ".join(f"'{kind} {name}{' = NUMBER' * (kind == 'thing')}'" for kind in kinds)
        hint = f"did you mean '{near}'?" if near else declare
        if near and kinds == ("thing",):  # things are often named by their number, and alike
            hint += f" If not, {declare}"
        raise Fault(f"expected {what}, found {shown(name)}, which is not declared", hint)
