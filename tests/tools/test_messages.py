"""What a message tells an author to write instead: the nearest name, and lines that are accepted."""
import os
import random
import re
import sys
import time
import unittest

sys.dont_write_bytecode = True
sys.path.insert(0, os.path.dirname(os.path.abspath(__file__)))
from common import HEAD, SEED, new_folder, put, random_site, run
from dzysite.folder import site_of
from dzysite.kinds import Faults
from dzysite.text import read_text
from dzysite.words import write_text

PUMPS = "concept Pump\nconcept Tank\nrole feeds\nthing pump-1 = 1\nthing tank-2 = 2\n"


def messages(text):
    try:
        read_text(text, "t")
    except Faults as faults:
        return faults.messages
    return []


class Messages(unittest.TestCase):
    def told(self, line, *parts, head=PUMPS):
        """A bad line has one message with these parts, and a line that it proposes is accepted."""
        got = messages(head + line + "\n")
        self.assertEqual(len(got), 1, got)
        self.assertTrue(got[0].startswith(f"t:{head.count(chr(10)) + 1}: expected "), got)
        for part in parts:
            self.assertIn(part, got[0])

    def proposes(self, line, other, head=PUMPS):
        self.told(line, f"did you mean '{other}'?", head=head)
        self.assertEqual(messages(head + other + "\n"), [])

    def test_a_concept_against_a_role(self):
        self.told("Pump < feeds", "found the concept 'Pump' and the role 'feeds'")
        self.proposes("Pump < feeds", "Pump < some feeds")
        self.proposes("feeds- < Tank", "some feeds- < Tank")
        self.proposes("disjoint Pump feeds", "disjoint Pump some feeds")
        self.proposes("some feeds < feeds", "some feeds < some feeds")

    def test_other_signs(self):
        self.told("Pump > Tank", "what is included stands on the left")
        self.proposes("Pump > Tank", "Tank < Pump")
        self.proposes("Pump>Tank", "Tank < Pump")
        self.proposes("Pump >= some feeds", "some feeds < Pump")
        for sign in ("->", "=>", "<=", "is", "isa", "in"):
            self.proposes(f"Pump {sign} Tank", "Pump < Tank")
        self.proposes("Pump < not Tank", "disjoint Pump Tank")
        self.proposes("Pump Tank", "Pump < Tank")
        self.told("Pump = Tank", "expected '=' only after a name that is declared", "'B1 < B2'")

    def test_other_ways_to_write_a_fact(self):
        self.told("feeds 1, 2", "set apart by spaces, without commas or brackets, found '1,'")
        for line in ("feeds 1, 2", "feeds(1,2)", "feeds (1, 2);", "feeds 1,2", "1 feeds 2", "feeds- 2 1"):
            self.proposes(line, "feeds 1 2")
        for line in ("Pump(1)", "1 Pump", "Pump (1)"):
            self.proposes(line, "Pump 1")
        self.proposes("pump-1 feeds tank-2", "feeds pump-1 tank-2")
        self.proposes("tank-2 Tank", "Tank tank-2")
        self.proposes("tank-3 = 3", "thing tank-3 = 3")
        self.told("some feeds 1", "a fact of a role names both things: 'ROLE THING THING'")
        self.told("feeds 1", "write 'feeds THING THING'")
        self.told("Pump 1 2", "write 'Pump THING', one fact a line")

    def test_roles_and_some(self):
        self.proposes("functional some feeds", "functional feeds")
        self.proposes("Pump < some Tank", "Pump < Tank")
        self.told("Pump < some feeds Tank", "what feeds leads to is said by a rule of its own: 'some feeds- < Tank'")
        self.told("Pump < some feeds- Tank", "'some feeds < Tank'")
        self.told("disjoint Pump Tank Pump", "a rule has two sides")
        self.told("functional", "found the end of the line")

    def test_the_nearest_name(self):
        self.told("Pmup 1", "'Pmup', which is not declared; did you mean 'Pump'?")
        self.told("PUMP 1", "did you mean 'Pump'?")
        self.told("Pump pump-2", "did you mean 'pump-1'? If not, declare it: 'thing pump-2 = NUMBER'")
        self.told("Pump < some fedes", "did you mean 'feeds'?")
        self.told("functional fedes-", "did you mean 'feeds'?")
        self.told("disjiont Pump Tank", "did you mean 'disjoint'?")
        self.told("Concept Valve", "did you mean 'concept'?")
        self.told("Valve 1", "declare it: 'concept Valve'")
        self.told("drains 1 2", "declare it: 'role drains'")
        self.told("Pump xyzzy", "declare it: 'thing xyzzy = NUMBER'")

    def test_declarations(self):
        self.told("concept A, B", "write each concept on a line of its own, without commas")
        self.told("concept A B", "write 'concept A', one name a line")
        self.told("thing p 9", "write 'thing p = NUMBER'")
        self.told("thing p = 1", "use 'pump-1', or another number")
        self.told("concept C = 9", "leave '= 9' out")
        self.told("thing p = 007", "write '7'")
        self.told("concept some", "take another name")

    def test_whatever_is_proposed_is_accepted(self):
        """Lines of random sites with words left out, doubled or changed: no crash, and each line proposed is a good one."""
        rng = random.Random(SEED + 40)
        proposed = 0
        for _ in range(300):
            lines = write_text(site_of(*random_site(rng, small=True))).split("\n")
            good = [line for line in lines if line and line[0] != "#"]
            if not good:
                continue
            words = rng.choice(good).split()
            at = rng.randrange(len(words))
            words[at : at + 1] = rng.choice(([], [words[at]] * 2, [words[at] + ","], [">"], ["some"], ["some", words[at]], ["-"], [words[at] + "-"]))
            for message in messages("\n".join(good + [" ".join(words)])):
                other = re.search(r"did you mean '([^']* [^']*)'\?", message)
                if other:
                    proposed += 1
                    self.assertEqual(messages("\n".join(good + [other[1]])), [], message)
        self.assertGreater(proposed, 30)

    def test_many_bad_lines_are_judged_soon(self):
        things = "".join(f"thing dev{k} = {k}\n" for k in range(4000))
        start = time.monotonic()
        got = messages("concept A\n" + things + "".join(f"A dav{k}\n" for k in range(4000)))
        self.assertEqual(len(got), 4000)
        self.assertIn("did you mean 'dev0'?", got[0])
        self.assertLess(time.monotonic() - start, 20)

    def test_the_first_twenty_are_told(self):
        path = put(new_folder(self), "site.txt", HEAD + "A z\n" * 25)
        status, _, errors = run("check", path)
        self.assertEqual((status, len(errors.splitlines()), errors.splitlines()[-1]), (1, 21, "and 5 more"))

    def test_a_folder_for_a_text_and_a_text_for_a_folder(self):
        folder = new_folder(self)
        path = put(folder, "site.txt", HEAD)
        for words in (("show", folder), ("show", path), ("listing", path)):
            status, out, errors = run(*words)
            self.assertEqual((status, out), (1, ""))
            self.assertIn("expected a folder with rules.bin and bundle.bin, found no rules.bin; 'site build TEXT -o DIR' writes both", errors)
        status, _, errors = run("check", folder)
        self.assertEqual((status, f"{folder}: expected a text, found a folder; 'site show DIR' prints it as a text" in errors), (1, True))


if __name__ == "__main__":
    unittest.main()
