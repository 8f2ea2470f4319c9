"""What the tool says of a refused file: what is wrong, at which byte of which file, and in which rule or fact."""
import os
import random
import sys
import unittest
from unittest import mock

sys.dont_write_bytecode = True
sys.path.insert(0, os.path.dirname(os.path.abspath(__file__)))
import model
from common import F, LISTING, R, SEED, new_folder, put, random_site, run
from dzysite import clean
from dzysite.files import item_at
from dzysite.folder import site_of
from dzysite.kinds import BUNDLE, RULES, Refused

# Three rules, at 3, 6 and 9, and under R three facts, at 1, 3 and 5: a first, a middle and a last one.
THREE_RULES = bytes.fromhex("02 01 03 00 00 01 01 00 01 04 00")
THREE_FACTS = bytes.fromhex("03 00 07 01 07 40 09 07")

ENDS = "the bytes end before a number that is due is complete"
LONG = "a number of more than one byte whose last byte is 0"
OVER = "a number with its top bit set on the third byte, or over 65,535"
MANY = "a count over its limit, found "
UNKNOWN = "a concept or role that is not declared, found the code "
BROKEN = "a functional role stands on the right of a kind 2 rule, found rule "
AFTER = "bytes after the last item"
ORDER = "a fact not above the one before it"
KIND = "a rule kind over 4, found "


def put_in(data, at, number):
    """The bytes with others in the place of the one-byte number there."""
    return data[:at] + bytes.fromhex(number) + data[at + 1 :]


def in_rules():
    """Refused rule files, each with its number, place, where, and what is wrong."""
    for at in range(3):
        yield THREE_RULES[:at], 1, at, "in the header", ENDS
        yield put_in(THREE_RULES, at, "82 00"), 2, at, "in the header", LONG
        yield put_in(THREE_RULES, at, "80 80 04"), 3, at, "in the header", OVER
    for at, count, found in ((0, "41", "65; the limit is 64"), (1, "21", "33; the limit is 32"), (2, "81 04", "513; the limit is 512")):
        yield put_in(THREE_RULES, at, count), 4, at, "in the header", MANY + found
    for rule, kind in enumerate((3, 6, 9)):
        yield THREE_RULES[:kind], 1, kind, f"in rule {rule}", ENDS
        yield THREE_RULES[: kind + 1], 1, kind + 1, f"in rule {rule}", ENDS
        yield put_in(THREE_RULES, kind + 1, "81 00"), 2, kind + 1, f"in rule {rule}", LONG
        yield put_in(THREE_RULES, kind, "80 80 04"), 3, kind, f"in rule {rule}", OVER
        yield put_in(THREE_RULES, kind, "05"), 11, kind, f"in rule {rule}", KIND + "5"
        yield put_in(THREE_RULES, kind, "FF FF 03"), 11, kind, f"in rule {rule}", KIND + "65535"
        yield put_in(THREE_RULES, kind + 1, "02"), 5, kind + 1, f"in rule {rule}", UNKNOWN + "2"
    for rule, (hex_, at, right) in enumerate((("04 00 02 00 01 02 01 00", 3, 1), ("02 00 01 04 00 02 01 00", 6, 0), ("02 00 01 02 01 00 04 00", 9, 0))):
        yield bytes.fromhex("00 01 03" + hex_), 6, at, f"in rule {rule}", f"{BROKEN}{right}"
    yield THREE_RULES + b"\0", 7, 11, "after the last rule", AFTER


def in_bundle():
    """The same of bundles under R."""
    yield b"", 1, 0, "in the header", ENDS
    yield put_in(THREE_FACTS, 0, "83 00"), 2, 0, "in the header", LONG
    yield put_in(THREE_FACTS, 0, "80 80 80"), 3, 0, "in the header", OVER
    yield put_in(THREE_FACTS, 0, "81 20"), 4, 0, "in the header", MANY + "4097; the limit is 4096"
    yield bytes.fromhex("80 20"), 1, 2, "in fact 0", ENDS
    for fact, predicate in enumerate((1, 3, 5)):
        yield THREE_FACTS[:predicate], 1, predicate, f"in fact {fact}", ENDS
        yield THREE_FACTS[: predicate + 1], 1, predicate + 1, f"in fact {fact}", ENDS
        yield put_in(THREE_FACTS, predicate + 1, "87 00"), 2, predicate + 1, f"in fact {fact}", LONG
        yield put_in(THREE_FACTS, predicate + 1, "80 80 80"), 3, predicate + 1, f"in fact {fact}", OVER
        yield put_in(THREE_FACTS, predicate, "41"), 5, predicate, f"in fact {fact}", UNKNOWN + "65"
    yield bytes.fromhex("03 00 07 00 07 40 09 07"), 8, 3, "in fact 1", ORDER
    yield bytes.fromhex("03 00 07 40 09 07 01 07"), 8, 6, "in fact 2", ORDER
    yield THREE_FACTS + b"\0", 7, 8, "after the last fact", AFTER


def folder_of(test, rules, bundle):
    folder = new_folder(test)
    put(folder, "rules.bin", rules)
    put(folder, "bundle.bin", bundle)
    return folder


def clean_with(output, *words):
    """The command clean, with the program's output given by hand."""
    with mock.patch.object(clean, "run_program", lambda *_: output):
        return run("clean", *words)


class Refusals(unittest.TestCase):
    def told(self, rules, bundle, side, number, place, where, words):
        folder = folder_of(self, rules, bundle)
        message = f"{os.path.join(folder, side + '.bin')}: refused {number} in {side} at {place}, {where}: {words}\n"
        output = model.listing(rules, bundle)
        self.assertEqual(output, f"refused {number} in {side} at {place}\n")
        self.assertEqual(run("show", folder), (1, "", message))
        self.assertEqual(run("listing", folder, stdin=output.encode()), (1, "", message))
        self.assertEqual(clean_with(output, folder), (2, "", message))
        self.assertEqual(clean_with(output, folder, "--explain", "0"), (2, "", message))

    def all_told(self, cases, side, word, numbers, in_items):
        """Each case is told; there are all these numbers, and these in each of the three items."""
        seen = set()
        for data, number, place, where, words in cases:
            with self.subTest(data=data.hex(" ")):
                rules, bundle = (data, F) if side == "rules" else (R, data)
                self.told(rules, bundle, side, number, place, where, words)
            seen.add((number, where))
        self.assertEqual({number for number, _ in seen}, numbers)
        self.assertTrue(all((number, f"in {word} {item}") in seen for number in in_items for item in range(3)))

    def test_in_rules(self):
        self.all_told(in_rules(), "rules", "rule", {1, 2, 3, 4, 5, 6, 7, 11}, (1, 2, 3, 5, 6, 11))

    def test_in_bundle(self):
        self.all_told(in_bundle(), "bundle", "fact", {1, 2, 3, 4, 5, 7, 8}, (1, 2, 3, 5))

    def test_an_item_far_in(self):
        rules = bytes.fromhex("01 00 80 04") + bytes(511 * 3)
        self.told(rules + b"\5", b"", "rules", 11, 4 + 511 * 3, "in rule 511", KIND + "5")
        facts = model.bundle_of([(0, thing, 0) for thing in range(4095)])[2:]
        self.told(bytes.fromhex("01 00 00"), bytes.fromhex("80 20") + facts + b"\1\7", "bundle", 5, 2 + len(facts), "in fact 4095", UNKNOWN + "1")

    def test_damaged_files(self):
        """Up to the damage a file's rules and facts are where they were, and so is a refusal's item."""
        rng = random.Random(SEED + 50)
        items = set()
        for _ in range(1500):
            rules, bundle, _ = random_site(rng, small=True)
            site, side = site_of(rules, bundle, ""), rng.choice((RULES, BUNDLE))
            data = (rules, bundle)[side]
            header = 3 if side == RULES else 1
            at = rng.randrange(header, len(data) + 1)
            damaged = data[:at] + rng.choice((b"", b"\x80\x00", b"\xff\xff\x7f", b"\x05", b"\x60"))
            try:
                site_of(*((damaged, bundle) if side == RULES else (rules, damaged)), "")
            except Refused as refused:
                if refused.side == side and refused.place <= min(at, len(data) - 1):
                    self.assertEqual(refused.item, item_at(site, side, refused.place), damaged.hex(" "))
                    items.add((side, refused.item))
        self.assertTrue(all((side, item) in items for side in (RULES, BUNDLE) for item in range(5)))


class Differences(unittest.TestCase):
    """The program and the tool must refuse alike."""

    def test_a_folder(self):
        unknown = bytes.fromhex("00 00 01 05")
        own = "the tool says 'refused 11 in rules at 3, in rule 0: a rule kind over 4, found 5': one of the two is wrong, please report it"
        folder = folder_of(self, unknown, F)
        self.assertEqual(clean_with("refused 5 in rules at 3\n", folder), (2, "", f"{folder}: the program says 'refused 5 in rules at 3', and {own}\n"))
        self.assertEqual(clean_with(LISTING, folder), (2, "", f"{folder}: the program accepts the files, and {own}\n"))
        status, out, errors = run("listing", folder, stdin=b"refused 5 in rules at 3\n")
        self.assertEqual((status, out), (1, ""))
        self.assertEqual(errors, f"{folder}/rules.bin: refused 11 in rules at 3, in rule 0: a rule kind over 4, found 5\noutput: expected 'refused 11 in rules at 3', found 'refused 5 in rules at 3'\n")
        folder = folder_of(self, R, F)
        self.assertEqual(clean_with("refused 8 in bundle at 7\n", folder), (2, "", f"{folder}: fact 3: R0 9 7: the program says 'refused 8 in bundle at 7, in fact 3: {ORDER}', and the tool accepts the files: one of the two is wrong, please report it\n"))

    def test_a_text(self):
        """The line of the rule or fact at the program's place."""
        path = "examples/worked-site/site.txt"
        for said, where, quote in (
            ("refused 4 in rules at 2", "in the header", ""),
            ("refused 11 in rules at 3", "in rule 0", "line 13: disjoint Switch Camera: "),
            ("refused 5 in rules at 10", "in rule 2", "line 15: some uplink- < Switch: "),
            ("refused 5 in rules at 16", "in rule 4", "line 17: disjoint uplink uplink-: "),
            ("refused 7 in rules at 17", "after the last rule", ""),
            ("refused 4 in bundle at 0", "in the header", ""),
            ("refused 5 in bundle at 1", "in fact 0", "line 19: Switch dev7: "),
            ("refused 3 in bundle at 12", "in fact 4", "line 23: uplink dev9 dev300: "),
            ("refused 1 in bundle at 16", "in fact 5", "line 24: uplink 12 12: "),
            ("refused 7 in bundle at 17", "after the last fact", ""),
        ):
            status, out, errors = clean_with(said + "\n", path)
            self.assertEqual((status, out), (2, ""))
            self.assertTrue(errors.startswith(f"{path}: {quote}the program says '{said}, {where}: "), errors)
            self.assertTrue(errors.endswith("', and the tool accepts the files: one of the two is wrong, please report it\n"), errors)


if __name__ == "__main__":
    unittest.main()
