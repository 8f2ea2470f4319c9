"""The command clean: from a text or a folder to the named listing, or to the reason of one fact, in one go."""
import os
import sys

from .explain import explain, quotes_of_files, quotes_of_text
from .files import item_at
from .folder import contents, read_file, read_folder, refused_file, site_of
from .kinds import FILES, NO_ITEM, RULES, Fault, Faults, Refused, counted, refusal_line
from .lines import text_of
from .listing import KEPT, count_marks, named_listing, read_listing, read_refusal
from .program import find_program, run_program
from .reasons import Judge
from .text import Reading

ONE_IS_WRONG = "one of the two is wrong, please report it"

# The exit status: the worst of all sites.
NOTHING_DROPPED, DROPPED, FAILED = 0, 1, 2


class Cleaned:
    """A site that the program has judged."""

    def __init__(self, path, program):
        self.path = path
        if os.path.isdir(path):
            self.read_folder(program)
        else:
            self.read_text(program)

    def read_text(self, program):
        reading = Reading(self.path)
        self.site, notes = reading.read(text_of(read_file(self.path), self.path))
        for note in notes:
            print(note, file=sys.stderr)
        rules, bundle, _ = contents(self.site, self.path)
        self.quotes = quotes_of_text(reading)
        self.judge(run_program(program, rules, bundle))

    def read_folder(self, program):
        rules, bundle, names = read_folder(self.path)
        output = run_program(program, rules, bundle)
        try:
            self.site = site_of(rules, bundle, names, os.path.join(self.path, FILES[2]))
        except Refused as refused:
            raise Faults([self.tool_refuses(read_refusal(output), refused)]) from None
        self.quotes = quotes_of_files(self.site)
        self.judge(output)

    def tool_refuses(self, said, refused):
        """The message where the tool refuses a file: the program's line, which has no item, must be that refusal's."""
        if said == refused.printed():
            return refused_file(self.path, refused)
        program = f"says '{refusal_line(*said)}'" if said else "accepts the files"
        return f"{self.path}: the program {program}, and the tool says '{refused.told()}': {ONE_IS_WRONG}"

    def program_refuses(self, said):
        """The message where only the program refuses: the rule or fact at its place is quoted, with its line in a text."""
        _, side, place = said
        refused = Refused(*said, item_at(self.site, side, place))
        items = self.quotes.rules if side == RULES else self.quotes.facts
        quote = "" if refused.item == NO_ITEM else ": ".join(items[refused.item]) + ": "
        return f"{self.path}: {quote}the program says '{refused.told()}', and the tool accepts the files: {ONE_IS_WRONG}"

    def judge(self, output):
        said = read_refusal(output)
        if said:
            raise Faults([self.program_refuses(said)])
        try:
            self.judged = read_listing(self.site, output)
        except Fault as fault:
            raise Faults([f"{self.path}: the program's output: {fault}"]) from None

    def summary(self):
        kept, alone, disputed = count_marks(self.judged)
        return f"{self.path}: {counted(len(self.judged), 'fact')}, {kept} kept, {alone + disputed} dropped ({alone} alone, {disputed} disputed)"

    def status(self):
        return NOTHING_DROPPED if all(mark == KEPT for mark, _ in self.judged) else DROPPED

    def explained(self, number):
        if number >= len(self.judged):
            raise Faults([f"{self.path}: expected a fact's number, below {len(self.judged)}, found {number}"])
        try:
            return explain(Judge(self.site), self.quotes, number, *self.judged[number])
        except Fault as fault:
            raise Faults([f"{self.path}: {fault}"]) from None


def clean_one(path, program, listing):
    """One site: its listing if asked for, and its summary line."""
    cleaned = Cleaned(path, program)
    if listing:
        sys.stdout.write(named_listing(cleaned.site, cleaned.judged))
    print(cleaned.summary())
    return cleaned.status()


def explain_one(path, program, number):
    """One fact of one site: why it is dropped, or that nothing disputes it."""
    cleaned = Cleaned(path, program)
    sys.stdout.write(cleaned.explained(number))
    return NOTHING_DROPPED if cleaned.judged[number][0] == KEPT else DROPPED


def clean(args, tell):
    """All sites; `tell` prints the faults of one that could not be cleaned."""
    several = len(args.sites) > 1
    try:
        program = find_program(args.program)
    except Faults as faults:
        tell(faults)
        return FAILED
    worst = NOTHING_DROPPED
    for path in args.sites:
        try:
            if args.explain is None:
                status = clean_one(path, program, args.listing or not several)
            else:
                status = explain_one(path, program, args.explain)
        except BrokenPipeError:
            raise
        except (Faults, OSError) as faults:
            sys.stdout.flush()
            tell(faults)
            if several:
                print(f"{path}: not cleaned")
            status = FAILED
        worst = max(worst, status)
    return worst
