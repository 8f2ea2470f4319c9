"""The cleaner's output: read, held to the site's facts, and printed with names."""
import re

from .kinds import BUNDLE, MEANINGS, RULES, Fault, counted
from .lines import shown
from .words import fact_text

KEPT, ALONE, DISPUTED = "kept", "alone", "disputed"
MARKS = (KEPT, ALONE, DISPUTED)

PLAIN = r"(0|[1-9][0-9]{0,4})"
COUNTS = re.compile(f"facts {PLAIN} kept {PLAIN} alone {PLAIN} disputed {PLAIN}")
JUDGED = re.compile(f"{PLAIN} (?:(kept|alone)|disputed {PLAIN})")
REFUSAL = re.compile(rf"refused ({'|'.join(map(str, MEANINGS))}) in (rules|bundle) at (0|[1-9][0-9]*)")


def read_refusal(output):
    """Number, side and place if the output is a refusal, else None."""
    refused = REFUSAL.fullmatch(output[:-1] if output.endswith("\n") else output)
    return refused and (int(refused[1]), {"rules": RULES, "bundle": BUNDLE}[refused[2]], int(refused[3]))


def read_judged(line, number, total):
    """The mark and partner of one line of a listing; the partner is None but for a disputed fact."""
    judged = JUDGED.fullmatch(line)
    if not judged or int(judged[1]) != number:
        raise Fault(f"line {number + 2}: expected '{number} kept', '{number} alone' or '{number} disputed PARTNER', found {shown(line)}")
    if judged[2]:
        return judged[2], None
    partner = int(judged[3])
    if partner >= total or partner == number:
        raise Fault(f"line {number + 2}: expected another fact's number as the partner, found {partner}")
    return DISPUTED, partner


def read_listing(site, output):
    """Each fact's mark and partner; Fault if the output is not a listing of this site."""
    lines = output.split("\n")
    if lines.pop() != "" or not lines:
        raise Fault("expected the cleaner's output, each line ended by a newline")
    counts = COUNTS.fullmatch(lines[0])
    if not counts:
        raise Fault(f"line 1: expected 'facts N kept N alone N disputed N', found {shown(lines[0])}")
    total, *by_mark = map(int, counts.groups())
    if total != len(site.facts):
        raise Fault(f"line 1: expected {counted(len(site.facts), 'fact')}, as in bundle.bin, found {total}")
    if len(lines) != total + 1:
        raise Fault(f"expected {counted(total, 'line')} after the first, found {len(lines) - 1}")
    judged = [read_judged(line, number, total) for number, line in enumerate(lines[1:])]
    if by_mark != count_marks(judged):
        raise Fault("line 1: the counts are not those of the lines after it")
    return judged


def count_marks(judged):
    """How many facts are kept, alone and disputed."""
    marks = [mark for mark, _ in judged]
    return [marks.count(mark) for mark in MARKS]


def judged_text(site, number, mark, partner):
    """A fact, its mark and its partner in words: a line of the named listing."""
    text = f"{number} {fact_text(site, site.facts[number])}: {mark}"
    if partner is not None:
        text += f", partner {partner} {fact_text(site, site.facts[partner])}"
    return text


def named_listing(site, judged):
    """The listing with each fact and partner in words."""
    lines = ["facts {} kept {} alone {} disputed {}".format(len(judged), *count_marks(judged))]
    lines += [judged_text(site, number, mark, partner) for number, (mark, partner) in enumerate(judged)]
    return "".join(line + "\n" for line in lines)
