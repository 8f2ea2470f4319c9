"""The command clean --explain: chains written by hand, and random sites where each chain is checked and agrees with the program.

RUNS=5000 python3 tests/tools/test_explain.py tries more of them."""
import os
import random
import subprocess
import sys
import unittest

sys.dont_write_bytecode = True
sys.path.insert(0, os.path.dirname(os.path.abspath(__file__)))
import chain
import model
from common import F, HEAD, R, SEED, file_of, new_folder, put, random_site, run, run_process
from dzysite.explain import explain, quotes_of_files, quotes_of_text
from dzysite.files import write_bundle, write_rules
from dzysite.folder import site_of
from dzysite.follows import Follows
from dzysite.kinds import Fault, Site
from dzysite.listing import read_listing
from dzysite.program import RUNNER, find_program
from dzysite.reasons import Judge
from dzysite.text import Reading
from dzysite.words import write_text

# Runs of the program on random rules; the facts of a run are those of several sites, which share no thing.
RUNS = int(os.environ.get("RUNS", "600"))
YARDS = 4


class Written(unittest.TestCase):
    """What the tool prints for one fact, line by line."""

    def explains(self, text, number, *lines, status=1):
        path = put(new_folder(self), "site.txt", text)
        got = run("clean", path, "--explain", str(number))
        self.assertEqual((got[0], got[2]), (status, ""))
        self.assertEqual([" ".join(line.split()) for line in got[1].splitlines()], list(lines))
        chain.check(chain.site_of_text(text), got[1])

    def test_disjoint(self):
        self.explains(
            HEAD + "disjoint A B  # never\nA x\nB 1\n", 0,
            "0 A x: disputed, partner 1 B x",
            "line 8: A x",
            "line 9: B 1 so B x",
            "line 7: disjoint A B so not both A x and B x",
        )

    def test_through_inclusions(self):
        self.explains(
            HEAD + "concept C\nconcept D\nC<D\nD < A\ndisjoint B A\nB x\nC x\n", 1,
            "1 C x: disputed, partner 0 B x",
            "line 13: C x",
            "line 9: C < D so D x",
            "line 10: D < A so A x",
            "line 12: B x",
            "line 11: disjoint B A so not both A x and B x",
        )

    def test_the_shortest_way(self):
        self.explains(
            HEAD + "concept C\nB < C\nC < A\nB < A\ndisjoint A some r\nB x\nr x y\n", 0,
            "0 B x: disputed, partner 1 r x y",
            "line 12: B x",
            "line 10: B < A so A x",
            "line 13: r x y so some r x",
            "line 11: disjoint A some r so not both A x and some r x",
        )

    def test_the_shortest_meeting(self):
        self.explains(
            HEAD + "concept C\nA < C\ndisjoint C B\ndisjoint A B\nA x\nB x\n", 0,
            "0 A x: disputed, partner 1 B x",
            "line 11: A x",
            "line 12: B x",
            "line 10: disjoint A B so not both A x and B x",
        )

    def test_through_a_demanded_role(self):
        self.explains(
            HEAD + "A < some r\nr < s\ndisjoint some s B\nA x\nB x\n", 0,
            "0 A x: disputed, partner 1 B x",
            "line 10: A x",
            "line 7: A < some r so some r x",
            "line 8: r < s so some s x",
            "line 11: B x",
            "line 9: disjoint some s B so not both some s x and B x",
        )

    def test_functional(self):
        self.explains(
            HEAD + "functional r\nr x 5\nr x y\n", 0,
            "0 r x y: disputed, partner 1 r x 5",
            "line 9: r x y",
            "line 8: r x 5",
            "line 7: functional r so not both r x y and r x 5",
        )

    def test_functional_inverse(self):
        self.explains(
            HEAD + "functional r-\nr 5 y\nr x y\n", 1,
            "1 r 5 y: disputed, partner 0 r x y",
            "line 8: r 5 y so r- y 5",
            "line 9: r x y so r- y x",
            "line 7: functional r- so not both r- y 5 and r- y x",
        )

    def test_loop_at_its_thing(self):
        self.explains(
            HEAD + "disjoint some r some r-\nr x x\nr x y\n", 0,
            "0 r x x: alone",
            "line 8: r x x so some r x",
            "line 8: r x x so some r- x",
            "line 7: disjoint some r some r- so not both some r x and some r- x",
        )

    def test_loop_at_its_pair(self):
        self.explains(
            HEAD + "disjoint r r-\nr x x\n", 0,
            "0 r x x: alone",
            "line 8: r x x",
            "line 8: r x x so r- x x",
            "line 7: disjoint r r- so not both r x x and r- x x",
        )

    def test_forth_and_back(self):
        self.explains(
            HEAD + "disjoint r r-\nr x y\nr y x\n", 1,
            "1 r y x: disputed, partner 0 r x y",
            "line 9: r y x",
            "line 8: r x y so r- y x",
            "line 7: disjoint r r- so not both r y x and r- y x",
        )

    def test_inverse_inclusions(self):
        self.explains(
            HEAD + "r < s-\ndisjoint some s A\nA y\nr x y\n", 1,
            "1 r x y: disputed, partner 0 A y",
            "line 10: r x y so some r- y",
            "line 7: r < s- so some s y",
            "line 9: A y",
            "line 8: disjoint some s A so not both some s y and A y",
        )
        self.explains(
            HEAD + "role t\nr- < s-\ndisjoint s t-\nr x y\nt y x\n", 0,
            "0 r x y: disputed, partner 1 t y x",
            "line 10: r x y",
            "line 8: r- < s- so s x y",
            "line 11: t y x so t- x y",
            "line 9: disjoint s t- so not both s x y and t- x y",
        )

    def test_empty_role(self):
        """Document 01's case: rules 02 01 04 01 00 01 00 01 40 00 41 00 00 41 01."""
        text = "concept Switch\nconcept Camera\nrole uplink\ndisjoint Switch Camera\nCamera < some uplink\nsome uplink- < Switch\nsome uplink- < Camera\nSwitch 7\nCamera 7\n"
        self.assertEqual(write_rules(Reading("t").read(text)[0]), bytes.fromhex("02 01 04 01 00 01 00 01 40 00 41 00 00 41 01"))
        self.explains(
            text, 1,
            "1 Camera 7: alone",
            "line 9: Camera 7",
            "line 5: Camera < some uplink so some uplink 7",
            "but nothing is some uplink, since nothing is some uplink-:",
            "line 6: some uplink- < Switch so Switch",
            "line 7: some uplink- < Camera so Camera",
            "line 4: disjoint Switch Camera so not both Switch and Camera",
        )
        self.explains(text, 0, "0 Switch 7: kept", "nothing disputes it: the rules forbid it neither by itself nor beside a fact that is not alone", status=0)

    def test_empty_in_two_steps(self):
        self.explains(
            HEAD + "A < some r\nsome r- < some s\ndisjoint s s\nA x\n", 0,
            "0 A x: alone",
            "line 10: A x",
            "line 7: A < some r so some r x",
            "but nothing is some r, since nothing is some r-:",
            "line 8: some r- < some s so some s",
            "but nothing is some s, since s joins nothing:",
            "line 9: disjoint s s so never s",
        )

    def test_empty_in_two_steps_by_one_rule_twice(self):
        text = HEAD + "concept X\nconcept P\nconcept Q\nA < some r\nsome r- < X\nX < B\nB < some s\nsome s- < X\nB < P\nsome s- < Q\ndisjoint P Q\nA x\n"
        self.explains(
            text, 0,
            "0 A x: alone",
            "line 18: A x",
            "line 10: A < some r so some r x",
            "but nothing is some r, since nothing is some r-:",
            "line 11: some r- < X so X",
            "line 12: X < B so B",
            "line 13: B < some s so some s",
            "but nothing is some s, since nothing is some s-:",
            "line 14: some s- < X so X",
            "line 12: X < B so B",
            "line 15: B < P so P",
            "line 16: some s- < Q so Q",
            "line 17: disjoint P Q so not both P and Q",
        )

    def test_empty_concept(self):
        self.explains(
            HEAD + "concept C\nB < A\nA < C\ndisjoint C C\nB x\n", 0,
            "0 B x: alone",
            "line 11: B x",
            "line 8: B < A so A x",
            "line 9: A < C so C x",
            "line 10: disjoint C C so never C x",
        )

    def test_two_ways_that_begin_alike(self):
        self.explains(
            HEAD + "concept C\nC < A\nA < some r\nA < B\ndisjoint some r B\nC x\n", 0,
            "0 C x: alone",
            "line 12: C x",
            "line 8: C < A so A x",
            "line 9: A < some r so some r x",
            "line 10: A < B so B x",
            "line 11: disjoint some r B so not both some r x and B x",
        )


class Examples(unittest.TestCase):
    def test_every_fact_of_the_two_sites(self):
        for name in ("worked-site", "second-site"):
            text = file_of(os.path.join(model.ROOT, "examples", name), "site.txt").decode()
            own = chain.site_of_text(text)
            lines = file_of(os.path.join(model.ROOT, "examples", name), "listing.txt").decode().splitlines()[1:]
            for number, line in enumerate(lines):
                status, out, errors = run("clean", f"examples/{name}/site.txt", "--explain", str(number))
                mark = line.split()[1]
                self.assertEqual((status, errors, chain.check(own, out)[0]), (0 if mark == "kept" else 1, "", mark))

    def test_folder_without_names(self):
        folder = new_folder(self)
        put(folder, "rules.bin", R)
        put(folder, "bundle.bin", F)
        status, out, errors = run_process("clean", folder, "--explain", "3")
        self.assertEqual((status, errors), (1, ""))
        self.assertEqual([" ".join(line.split()) for line in out.splitlines()], [
            "3 R0 9 7: disputed, partner 1 C1 7",
            "fact 3: R0 9 7 so some R0- 7",
            "rule 2: some R0- < C0 so C0 7",
            "fact 1: C1 7",
            "rule 0: disjoint C0 C1 so not both C0 7 and C1 7",
        ])
        chain.check(chain.site_of_show(run("show", folder)[1]), out)

    def test_number_of_no_fact(self):
        path = "examples/worked-site/site.txt"
        self.assertEqual(run("clean", path, "--explain", "6"), (2, "", f"{path}: expected a fact's number, below 6, found 6\n"))
        for word in ("x", "-1", "1.5", ""):
            self.assertEqual(run("clean", path, "--explain", word)[:2], (2, ""))
        self.assertEqual(run("clean", path, path, "--explain", "0")[:2], (2, ""))


def disputing_site(rng, yards=1):
    """A random site with few codes and things, so that facts often meet; some with many rules, some with few. Yards share no thing."""
    concepts, roles = rng.randint(1, 5), rng.randint(0, 3)
    basics = list(range(concepts)) + [64 + q for q in range(2 * roles)]
    kinds = [0, 0, 0, 1, 1] + [2, 3, 4] * (roles > 0)
    rules = []
    for _ in range(rng.randint(1, rng.choice((4, 8, 14)))):
        kind = rng.choice(kinds)
        row = basics if kind < 2 else list(range(2 * roles))
        rules.append((kind,) + tuple(rng.choice(row) for _ in range(1 if kind == 4 else 2)))
    if roles > 1 and rng.random() < 0.2:  # each role's other end demands the next role, and the last is empty
        rules += [(0, 0, 64)] + [(0, 65 + 2 * j, 66 + 2 * j) for j in range(roles - 1)] + [rng.choice(((1, 63 + 2 * roles, 63 + 2 * roles), (3, 2 * roles - 2, 2 * roles - 2)))]
    rules = [rule for rule in rules if rule[0] != 4 or not any(r[0] == 2 and r[2] // 2 == rule[1] // 2 for r in rules)]
    predicates = list(range(concepts)) + [64 + j for j in range(roles)]
    facts = set()
    for yard in range(yards):
        thing = lambda first=10 * yard: first + rng.randint(0, 2)
        for _ in range(rng.randint(1, 8)):
            predicate = rng.choice(predicates)
            facts.add((predicate, thing(), thing() if predicate >= 64 else 0))
    return Site([""] * concepts, [""] * roles, {}, rules, sorted(facts))


def disputing_files(rng):
    site = disputing_site(rng, YARDS)
    return write_rules(site), write_bundle(site), "thing 1 one\n"


class Random(unittest.TestCase):
    """The program's marks on random sites, each explained and each chain checked."""

    @classmethod
    def setUpClass(cls):
        cls.command = subprocess.run([RUNNER, "command", find_program()], stdout=subprocess.PIPE, check=True).stdout.decode().split()

    def program(self, folder, rules, bundle):
        put(folder, "rules.bin", rules)
        put(folder, "bundle.bin", bundle)
        return subprocess.run(self.command, cwd=folder, stdout=subprocess.PIPE, check=True).stdout.decode()

    def test_random_sites(self):
        rng, folder = random.Random(SEED + 50), new_folder(self)
        seen = {"kept": 0, "alone": 0, "disputed": 0}
        emptied = deepest = 0
        for k in range(RUNS):
            rules, bundle, names = random_site(rng, small=True) if k % 5 == 0 else disputing_files(rng)
            site = site_of(rules, bundle, names)
            judged = read_listing(site, self.program(folder, rules, bundle))
            judge, quotes, own = Judge(site), *self.quoted(site, as_text=k % 2 == 0)
            for number, (mark, partner) in enumerate(judged):
                try:
                    got, eights = chain.check(own, explain(judge, quotes, number, mark, partner))
                except (Fault, chain.Bad) as bad:
                    self.fail(f"{bad}\nrules {rules.hex(' ')}\nbundle {bundle.hex(' ')}\nfact {number}")
                self.assertEqual(got, mark)
                seen[mark] += 1
                emptied += eights > 0
                deepest = max(deepest, eights)
        self.assertGreater(min(seen.values()), RUNS // 2)
        self.assertGreater(emptied, RUNS // 5)
        self.assertGreater(deepest, 1)
        if "RUNS" in os.environ:
            print(f"{RUNS} runs: {seen}, {emptied} by step 8, at most {deepest} deep")

    def quoted(self, site, as_text):
        """The tool's quotes and the checker's own reading of a site."""
        text = write_text(site)
        if not as_text:
            return quotes_of_files(site), chain.site_of_show(text)
        reading = Reading("t")
        reading.read(text)
        return quotes_of_text(reading), chain.site_of_text(text)

    def test_what_follows_is_document_01s(self):
        """Ways, meetings and empty codes against included and excluded, as the steps give them."""
        rng, seen = random.Random(SEED + 52), [0, 0, 0]
        for _ in range(150):
            site = disputing_site(rng)
            follows = Follows(site)
            included, excluded = model.follows(len(site.concepts), len(site.roles), site.rules)
            self.assertEqual({(x, y) for x in follows.codes for y in follows.reached[x]}, included)
            self.assertEqual(set(follows.empty), {x for x, z in excluded if x == z})
            full = [x for x in follows.codes if x not in follows.empty]
            self.assertEqual({(x, z) for x in full for z in full if follows.meet(x, z)}, {(x, z) for x, z in excluded if x in full and z in full})
            seen = [a + b for a, b in zip(seen, (len(included), len(excluded), len(follows.empty)))]
        self.assertGreater(min(seen), 300)

    def test_a_wrong_mark_is_told(self):
        """Every other mark and partner than the program's own is refused, with both told."""
        rng, told = random.Random(SEED + 51), 0
        for _ in range(100):
            site = disputing_site(rng)
            site = site_of(write_rules(site), write_bundle(site), "")
            judge, quotes = Judge(site), quotes_of_files(site)
            marks, partners = model.judge(len(site.concepts), len(site.roles), site.rules, site.facts)
            for number, mark in enumerate(marks):
                right = (("kept", "alone", "disputed")[mark], partners[number] if mark == 2 else None)
                for wrong in [("kept", None), ("alone", None)] + [("disputed", k) for k in range(len(marks)) if k != number]:
                    if wrong != right:
                        with self.assertRaises(Fault) as caught:
                            explain(judge, quotes, number, *wrong)
                        self.assertIn("one of the two is wrong", str(caught.exception))
                        told += 1
        self.assertGreater(told, 500)

    def test_the_largest_site(self):
        """All codes and 512 rules: a chain through 63 inclusions, and an answer in a few seconds."""
        rules = [(0, k, k + 1) for k in range(62)] + [(1, 62, 63)] + [(2, q, q + 2) for q in range(62)] + [(0, 64 + q, 127 - q) for q in range(64)]
        rules += [(0, 63, 63)] * (512 - len(rules))
        site = site_of(write_rules(Site([""] * 64, [""] * 32, {}, rules, [])), write_bundle(Site(facts=[(0, 7, 0), (63, 7, 0), (64, 1, 2)])), "")
        judged = read_listing(site, self.program(new_folder(self), write_rules(site), write_bundle(site)))
        own = chain.site_of_show(write_text(site))
        judge, texts = Judge(site), []
        for number, (mark, partner) in enumerate(judged):
            texts.append(explain(judge, quotes_of_files(site), number, mark, partner))
            self.assertEqual(chain.check(own, texts[-1])[0], mark)
        self.assertEqual(len(texts[0].splitlines()), 1 + 1 + 62 + 1 + 1)


class Checker(unittest.TestCase):
    """The checker itself refuses what is no chain."""

    TEXT = "concept A\nconcept B\nconcept C\nrole r\nA < C\ndisjoint C B\nA < some r\ndisjoint some r- some r-\nA 1\nB 1\nr 1 2\nr 3 4\nfunctional r\n"
    GOOD = "0 A 1: disputed, partner 1 B 1\nline 9: A 1\nline 5: A < C  so C 1\nline 10: B 1\nline 6: disjoint C B  so not both C 1 and B 1\n"
    EMPTY = "0 A 1: alone\nline 9: A 1\nline 7: A < some r  so some r 1\nbut nothing is some r, since nothing is some r-:\nline 8: disjoint some r- some r-  so never some r-\n"

    def test_bad_chains(self):
        site = chain.site_of_text(self.TEXT)
        self.assertEqual(chain.check(site, self.GOOD), ("disputed", 0))
        self.assertEqual(chain.check(site, self.EMPTY), ("alone", 1))
        for good, old, new in (
            (self.GOOD, "line 5: A < C", "line 7: A < C"),
            (self.GOOD, "line 5: A < C  so C 1\n", ""),
            (self.GOOD, "so C 1", "so C 2"),
            (self.GOOD, "so C 1", "so B 1"),
            (self.GOOD, "line 10: B 1\n", ""),
            (self.GOOD, "line 10: B 1\n", "line 10: B 1\nline 7: A < some r  so some r 1\n"),
            (self.GOOD, "not both C 1 and B 1", "not both A 1 and B 1"),
            (self.GOOD, "not both C 1 and B 1", "not both C 1 and C 1"),
            (self.GOOD, "line 6: disjoint C B  so not both C 1 and B 1\n", ""),
            (self.GOOD, "partner 1 B 1", "partner 1 B 2"),
            (self.GOOD, ": disputed, partner 1 B 1", ": alone"),
            (self.EMPTY, "since nothing is some r-:", "since nothing is B:"),
            (self.EMPTY, "but nothing is some r,", "but nothing is A,"),
            (self.EMPTY, "so never some r-", "so never some r"),
            (self.EMPTY, ": alone", ": disputed, partner 1 B 1"),
        ):
            self.assertIn(old, good)
            with self.assertRaises(chain.Bad, msg=(old, new)):
                chain.check(site, good.replace(old, new))
        twice = "2 r 1 2: disputed, partner 3 r 3 4\nline 11: r 1 2\nline 12: r 3 4\nline 13: functional r  so not both r 1 2 and r 3 4\n"
        with self.assertRaises(chain.Bad):
            chain.check(site, twice)


if __name__ == "__main__":
    unittest.main()
