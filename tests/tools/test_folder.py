"""Folders of files: numbers in bytes, names, and the way from bytes to text and back."""
import os
import random
import sys
import unittest

sys.dont_write_bytecode = True
sys.path.insert(0, os.path.dirname(os.path.abspath(__file__)))
from common import F, R, SEED, new_folder, put, random_site, run
from dzysite.files import number_at, number_bytes, write_bundle, write_rules
from dzysite.folder import site_of
from dzysite.kinds import Refused
from dzysite.names import write_names
from dzysite.text import read_text
from dzysite.words import write_text


class Numbers(unittest.TestCase):
    def test_forms(self):
        for hex_, value in (("00", 0), ("7F", 127), ("80 01", 128), ("AC 02", 300), ("80 20", 4096), ("FF FF 03", 65535)):
            self.assertEqual(number_bytes(value), bytes.fromhex(hex_))
            self.assertEqual(number_at(bytes.fromhex(hex_), 0, 1), (value, len(bytes.fromhex(hex_))))

    def test_faults(self):
        for hex_, number in (("80 80 04", 3), ("80 00", 2), ("80 80 80", 3), ("80", 1), ("", 1), ("80 80", 1), ("80 80 00", 2)):
            with self.assertRaises(Refused) as caught:
                number_at(bytes.fromhex(hex_), 0, 1)
            self.assertEqual(caught.exception.number, number, hex_)

    def test_every_value(self):
        for value in range(65536):
            data = number_bytes(value)
            self.assertEqual(number_at(data, 0, 0), (value, len(data)))


class Folder(unittest.TestCase):
    def folder(self, rules, bundle, names=None):
        folder = new_folder(self)
        put(folder, "rules.bin", rules)
        put(folder, "bundle.bin", bundle)
        if names is not None:
            put(folder, "names.txt", names)
        return folder

    def test_without_names(self):
        status, text, _ = run("show", self.folder(R, F))
        self.assertEqual(status, 0)
        self.assertIn("\nC1 < some R0\n", text)
        self.assertIn("\nR0 9 300\n", text)

    def test_made_names_are_new(self):
        got = site_of(R, F, "thing 7 C0\nconcept 1 R0\n")
        self.assertEqual((got.concepts, got.roles, got.things), (["C0_", "R0"], ["R0_"], {7: "C0"}))

    def test_refused_bytes(self):
        status, text, errors = run("show", self.folder(R, bytes.fromhex("02 00 07 00 07")))
        self.assertEqual((status, text), (1, ""))
        self.assertIn("bundle.bin: refused 8 in bundle at 3, in fact 1: a fact not above the one before it", errors)
        self.assertIn("rules.bin: refused 6 in rules at 3, in rule 0: ", run("show", self.folder(bytes.fromhex("00 01 02 04 00 02 01 01"), b""))[2])

    def test_refused_names(self):
        for names, message in (
            ("concept 2 A\n", "names.txt:1: expected a concept of rules.bin, which declares 2, found 2"),
            ("role 1 r\n", "names.txt:1: expected a role of rules.bin, which declares 1, found 1"),
            ("thing 65536 r\n", "names.txt:1: expected a number to 65,535"),
            ("concept 0 A\nconcept 1 A\n", "names.txt:2: the name 'A' already stands in line 1"),
            ("concept 0 A\nconcept 0 B\n", "names.txt:2: concept 0 already has the name 'A'"),
            ("concept 0\n", "names.txt:1: expected 'concept', 'role' or 'thing', a number and a name"),
            ("concept 0 thing\n", "names.txt:1: expected a name, found 'thing'"),
        ):
            status, _, errors = run("show", self.folder(R, F, names))
            self.assertEqual(status, 1)
            self.assertIn(message, errors)


class RoundTrips(unittest.TestCase):
    def test_bytes_to_text_and_back(self):
        rng = random.Random(SEED)
        for k in range(400):
            rules, bundle, names = random_site(rng, small=k % 20 != 0)
            whole = site_of(rules, bundle, names)
            text = write_text(whole)
            again, notes = read_text(text)
            self.assertEqual((again, notes), (whole, []))
            self.assertEqual((write_rules(again), write_bundle(again)), (rules, bundle))
            self.assertEqual(write_text(again), text)
            written = write_names(again)
            self.assertTrue(set(names.split("\n")) <= set(written.split("\n")))
            self.assertEqual(site_of(rules, bundle, written), whole)

    def test_text_in_any_order(self):
        rng = random.Random(SEED + 1)
        for _ in range(200):
            rules, bundle, names = random_site(rng, small=True)
            whole = site_of(rules, bundle, names)
            lines = [line for line in write_text(whole).split("\n") if line and line[0] != "#"]
            facts = lines[len(lines) - len(whole.facts):]
            doubled = facts + [rng.choice(facts)] * 2 if facts else []
            rng.shuffle(doubled)
            got, notes = read_text("\n".join(lines[: len(lines) - len(facts)] + doubled))
            self.assertEqual((got, len(notes)), (whole, 2 if facts else 0))

    def test_damaged_bytes_are_read_or_refused(self):
        rng = random.Random(SEED + 2)
        read = refused = 0
        for _ in range(2000):
            rules, bundle, _ = random_site(rng, small=True)
            data = bytearray(rng.choice((rules, bundle)))
            side = 0 if bytes(data) == rules else 1
            if data and rng.random() < 0.7:
                data[rng.randrange(len(data))] = rng.choice((0, 1, 64, 65, 127, 128, 129, 255))
            else:
                del data[rng.randrange(len(data)):]
            files = (bytes(data), bundle) if side == 0 else (rules, bytes(data))
            try:
                whole = site_of(*files, "")
                self.assertEqual((write_rules(whole), write_bundle(whole)), files)
                read += 1
            except Refused:
                refused += 1
        self.assertGreater(min(read, refused), 100)


if __name__ == "__main__":
    unittest.main()
