"""The text of a site, read: declarations first, since they may stand anywhere; then rules and facts. docs/TEXT.md."""
from .declarations import DECLARING, Names
from .files import right_of
from .kinds import FUNCTIONAL, MOST_FACTS, MOST_RULES, Fault, Faults, Site
from .lines import lines_of, shown
from .statements import Statements

# So many messages are told in full, and only those get hints.
MOST_MESSAGES = 20


class Reading:
    """A text being read, with the line of each rule and fact."""

    def __init__(self, file):
        self.file = file
        self.site = Site()
        self.names = Names(self.site)
        self.statements = Statements(self.names)
        self.faults = []  # (line, message)
        self.notes = []
        self.rule_lines = []  # (line, words)
        self.fact_lines = {}  # fact to (line, words)

    def each_line(self, lines, judge):
        for line, words in lines:
            try:
                judge(line, words)
            except Fault as fault:
                self.faults.append((line, str(fault)))

    def judge(self, line, words):
        self.names.hinting = len(self.faults) < MOST_MESSAGES
        try:
            rule, fact = self.statements.judge(words)
        except Fault as fault:
            if not self.names.hinting or fault.hint.startswith("did you mean"):
                raise
            raise Fault(fault.message, self.statements.suggest(words) or fault.hint) from None
        if rule:
            self.add_rule(line, words, rule)
        else:
            self.add_fact(line, words, fact)

    def add_rule(self, line, words, rule):
        if len(self.site.rules) == MOST_RULES:
            raise Fault(f"expected at most {MOST_RULES} rules, found one more")
        self.site.rules.append(rule)
        self.rule_lines.append((line, words))

    def add_fact(self, line, words, fact):
        if fact in self.fact_lines:
            self.notes.append(f"{self.file}:{line}: note: the same fact as in line {self.fact_lines[fact][0]}; it is written once")
        elif len(self.fact_lines) == MOST_FACTS:
            raise Fault(f"expected at most {MOST_FACTS:,} facts, found one more")
        else:
            self.fact_lines[fact] = (line, words)

    def judge_functional(self):
        for rule, (line, _) in zip(self.site.rules, self.rule_lines):
            k = right_of(self.site.rules, rule[1]) if rule[0] == FUNCTIONAL else None
            if k is not None:
                role = shown(self.site.roles[rule[1] // 2])
                message = f"expected no rule with {role} or its inverse on the right, since it is functional; found the one in line {self.rule_lines[k][0]}: take one of the two out"
                self.faults.append((line, message))

    def read(self, text):
        lines = list(lines_of(text))
        self.each_line([one for one in lines if one[1][0] in DECLARING], self.names.declare)
        self.each_line([one for one in lines if one[1][0] not in DECLARING], self.judge)
        self.judge_functional()
        if self.faults:
            raise Faults([f"{self.file}:{line}: {message}" for line, message in sorted(self.faults)])
        self.site.facts = sorted(self.fact_lines)
        return self.site, self.notes


def read_text(text, file="text"):
    """The site that a text says, and notes on facts that stand in it twice."""
    return Reading(file).read(text)
