"""Tests of tools/site, and of the examples in docs/: python3 tests/tools/test_site.py

Here: texts and the files made of them. The other test_*.py files beside it are loaded too."""
import os
import sys
import tempfile
import unittest

sys.dont_write_bytecode = True
sys.path.insert(0, os.path.dirname(os.path.abspath(__file__)))
import model
from common import F, HEAD, LISTING, R, file_of, new_folder, put, run, run_process
from dzysite.kinds import Faults
from dzysite.text import read_text


class Examples(unittest.TestCase):
    def build(self, name):
        folder = new_folder(self)
        status, _, errors = run_process("build", f"examples/{name}/site.txt", "-o", folder)
        self.assertEqual((status, errors), (0, ""))
        return folder

    def test_worked_site_bytes(self):
        folder = self.build("worked-site")
        self.assertEqual(file_of(folder, "rules.bin"), R)
        self.assertEqual(file_of(folder, "bundle.bin"), F)
        self.assertEqual(sorted(os.listdir(folder)), ["bundle.bin", "names.txt", "rules.bin"])

    def test_listings(self):
        self.assertEqual(model.listing(R, F), LISTING)
        for name in ("worked-site", "second-site"):
            folder = self.build(name)
            expected = file_of(os.path.join(model.ROOT, "examples", name), "listing.txt").decode()
            self.assertEqual(model.listing(file_of(folder, "rules.bin"), file_of(folder, "bundle.bin")), expected)

    def test_show_and_back(self):
        for name in ("worked-site", "second-site"):
            folder = self.build(name)
            status, text, _ = run("show", folder)
            self.assertEqual(status, 0)
            again = new_folder(self)
            self.assertEqual(run("build", put(again, "site.txt", text), "-o", again)[0], 0)
            for file in ("rules.bin", "bundle.bin", "names.txt"):
                self.assertEqual(file_of(folder, file), file_of(again, file))
            self.assertEqual(run("show", again)[1], text)

    def test_check(self):
        self.assertEqual(run_process("check", "examples/worked-site/site.txt"), (0, "examples/worked-site/site.txt: 2 concepts, 1 role, 3 named things, 5 rules, 6 facts\n", ""))


class Text(unittest.TestCase):
    def good(self, text):
        return read_text(text, "t")

    def bad(self, text, line, words):
        with self.assertRaises(Faults) as caught:
            read_text(text, "t")
        self.assertEqual(len(caught.exception.messages), 1, caught.exception.messages)
        self.assertTrue(caught.exception.messages[0].startswith(f"t:{line}: "), caught.exception.messages)
        self.assertIn(words, caught.exception.messages[0])

    def test_every_form(self):
        got, notes = self.good(HEAD + "A<some r # a comment\nsome r-<B\ndisjoint A B\ndisjoint some s A\nr < s-\ndisjoint r r-\nfunctional r\nA x\nr x 65535\nB 0\n")
        self.assertEqual(got.rules, [(0, 0, 64), (0, 65, 1), (1, 0, 1), (1, 66, 0), (2, 0, 3), (3, 0, 1), (4, 0)])
        self.assertEqual(got.facts, [(0, 1, 0), (1, 0, 0), (64, 1, 65535)])
        self.assertEqual(notes, [])

    def test_declared_later(self):
        got, _ = self.good("A x\nA < B\nthing x = 3\nconcept A\nconcept B\n")
        self.assertEqual((got.rules, got.facts), ([(0, 0, 1)], [(0, 3, 0)]))

    def test_numbers_of_declarations(self):
        got, _ = self.good("concept A = 0\nconcept B = 1\nrole r = 0\n")
        self.assertEqual((got.concepts, got.roles), (["A", "B"], ["r"]))

    def test_line_ends_and_mark(self):
        with tempfile.TemporaryDirectory() as folder:
            path = put(folder, "site.txt", "\ufeff# c\r\nconcept A\r# d\rA 1\n\nA 2")
            self.assertEqual(run("check", path)[:2], (0, f"{path}: 1 concept, 0 roles, 0 named things, 0 rules, 2 facts\n"))

    def test_merged_with_a_note(self):
        got, notes = self.good(HEAD + "A x\nB 2\nA 1\n")
        self.assertEqual(got.facts, [(0, 1, 0), (1, 2, 0)])
        self.assertEqual(notes, ["t:9: note: the same fact as in line 7; it is written once"])

    def test_rules_may_repeat(self):
        self.assertEqual(self.good(HEAD + "A < B\nA < B\n")[0].rules, [(0, 0, 1)] * 2)

    def test_refused_lines(self):
        for line, words in (
            ("concept", "expected a name after 'concept'"),
            ("concept 7", "expected a name"),
            ("concept C-", "expected a name"),
            ("concept some", "a word of the text's own"),
            ("concept A", "a concept since line 1"),
            ("role A", "a concept since line 1"),
            ("thing A = 9", "a concept since line 1"),
            ("concept C = 3", "expected 2, the number that this concept gets"),
            ("concept C D", "expected '= NUMBER' or the end of the line"),
            ("thing z", "expected '= NUMBER'"),
            ("thing z = 1", "which is 'x'"),
            ("thing z = 65536", "expected a number to 65,535"),
            ("thing z = 07", "without leading zeros"),
            ("thing z = -1", "expected a number"),
            ("thing z = 1 2", "expected '= NUMBER'"),
            ("A", "expected a thing or '<' after 'A'"),
            ("A # B", "# starts a comment"),
            ("r x", "expected 2 things after the role 'r', found 1"),
            ("A x y", "expected 1 thing after the concept 'A', found 2"),
            ("A z", "'z', which is not declared"),
            ("C x", "'C', which is not declared"),
            ("A B", "which is a concept"),
            ("x A", "which is a thing"),
            ("A 65536", "expected a number to 65,535"),
            ("A " + "9" * 5000, "expected a number to 65,535"),
            ("A 01", "without leading zeros"),
            ("A \u0661", "expected a number"),
            ("r- x y", "write the fact the other way round"),
            ("A <", "found the end of the line"),
            ("< A", "found '<'"),
            ("A < r", "two sides of one kind"),
            ("A < some", "expected a role after 'some'"),
            ("A < some B", "which is a concept"),
            ("A < some B-", "only a role has an inverse"),
            ("A < B-", "only a role has an inverse"),
            ("A < some x", "which is a thing"),
            ("A < x", "which is a thing"),
            ("A < B C", "expected the end of the line"),
            ("A < B < A", "expected the end of the line"),
            ("A B < A", "expected '<'"),
            ("A = B", "expected"),
            ("some r A", "expected a concept or a role first, found 'some'"),
            ("r-- < s", "expected a name"),
            ("disjoint A", "found the end of the line"),
            ("disjoint A r", "two sides of one kind"),
            ("disjoint A B A", "expected the end of the line"),
            ("functional", "expected one role"),
            ("functional A", "which is a concept"),
            ("functional some r", "expected one role"),
            ("functional r s", "expected one role"),
            ("caf\u00e9 x", "expected a name"),
            ("A\u00a0x", "expected a name"),
        ):
            with self.subTest(line=line):
                self.bad(HEAD + line + "\n", 7, words)

    def test_functional_on_the_right(self):
        for order in ("functional r\ns < r\n", "functional r-\ns < r\n", "functional r\ns < r-\n", "functional r\nr < r\n"):
            self.bad(HEAD + order, 7, "found the one in line 8")
        self.bad(HEAD + "s < r\nfunctional r\n", 8, "found the one in line 7")

    def test_limits(self):
        concepts = "".join(f"concept c{i}\n" for i in range(65))
        self.bad(concepts, 65, "at most 64 concepts")
        self.bad("".join(f"role r{i}\n" for i in range(33)), 33, "at most 32 roles")
        self.bad("concept A\n" + "A < A\n" * 513, 514, "at most 512 rules")
        facts = "concept A\n" + "".join(f"A {i}\n" for i in range(4097))
        self.bad(facts, 4098, "at most 4,096 facts")
        self.assertEqual(len(self.good(facts.replace("A 4096\n", "A 0\n"))[0].facts), 4096)
        self.assertEqual(len(self.good(concepts.replace("concept c64\n", ""))[0].concepts), 64)

    def test_all_faults_are_told(self):
        with self.assertRaises(Faults) as caught:
            read_text(HEAD + "A z\nB\n", "t")
        self.assertEqual([m.split(" ")[0] for m in caught.exception.messages], ["t:7:", "t:8:"])

    def test_a_bad_text_writes_nothing(self):
        with tempfile.TemporaryDirectory() as folder:
            out = os.path.join(folder, "out")
            status, printed, errors = run("build", put(folder, "site.txt", "A x\n"), "-o", out)
            self.assertEqual((status, printed, os.path.exists(out)), (1, "", False))
            self.assertIn("site.txt:1: expected", errors)

    def test_not_a_text(self):
        with tempfile.TemporaryDirectory() as folder:
            status, _, errors = run("check", put(folder, "site.txt", b"concept A\nA \xff\n"))
            self.assertEqual((status, "site.txt:2: expected UTF-8 text, found the byte FF" in errors), (1, True))
            status, _, errors = run("check", put(folder, "site.txt", "concept A\r\n# hides \u2028A 1\n"))
            self.assertEqual((status, "site.txt:2: expected lines ended by LF, CR LF or CR, found the character U+2028" in errors), (1, True))
            self.assertEqual(run("check", os.path.join(folder, "none"))[0], 1)
            self.assertEqual(run("build", "x")[0], 2)


def load_tests(loader, tests, _):
    """The tests of this file, and of every other test_*.py beside it."""
    here = os.path.dirname(os.path.abspath(__file__))
    others = sorted(name[:-3] for name in os.listdir(here) if name.startswith("test_") and name.endswith(".py") and name != "test_site.py")
    tests.addTests(loader.loadTestsFromNames(others))
    return tests


if __name__ == "__main__":
    unittest.main()
