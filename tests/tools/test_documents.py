"""The examples in docs/, the header and the man pages, held to the definitions."""
import os
import re
import sys
import unittest

sys.dont_write_bytecode = True
sys.path.insert(0, os.path.dirname(os.path.abspath(__file__)))
import model
from common import F, LISTING, R, document, file_of, new_folder, put, run, run_process
from dzysite.files import number_at, number_bytes, write_rules
from dzysite.kinds import Faults, MOST_FACTS, MOST_NUMBER, Refused, Site
from dzysite.text import read_text


def rows(text, heading):
    """The rows of the table under a heading, each a list of cells without backticks."""
    part = text.split(heading, 1)[1]
    table = re.search(r"\n(\|.*?\n)(?!\|)", part, re.S).group(1)
    return [[cell.strip().replace("`", "") for cell in line.strip().strip("|").split("|")] for line in table.strip().split("\n")[2:]]


EMPTY_ROLE = """concept Switch
concept Camera
role uplink
disjoint Switch Camera
Camera < some uplink
some uplink- < Switch
some uplink- < Camera
Switch 7
Camera 7
"""


def hex_of(cell):
    return {"R": R, "F": F, "none": b""}.get(cell) if cell in ("R", "F", "none") else bytes.fromhex(cell)


CALLS = {
    "read rules": lambda rules, bundle, args: model.check_rules(rules),
    "read bundle": lambda rules, bundle, args: model.check_bundle(rules, bundle),
    "mark": lambda rules, bundle, args: model.mark(rules, bundle, *args),
    "ask": lambda rules, bundle, args: model.ask(rules, bundle, *args),
    "has": lambda rules, bundle, args: model.has(rules, bundle, *args),
    "joins": lambda rules, bundle, args: model.joins(rules, bundle, *args),
    "write kept": lambda rules, bundle, args: model.write_kept(rules, bundle, *args),
    "give records": lambda rules, bundle, args: model.give_records(rules, bundle, *args),
    "write records": lambda rules, bundle, args: model.write_records(rules, list(zip(*[iter(args[:-1])] * 3)), args[-1]),
    "start reader": lambda rules, bundle, args: model.reader_start(rules, bundle),
    "step": lambda rules, bundle, args: model.reader_next(bundle, *args),
}


def refusal_of(call, rules, bundle, args):
    """The four numbers of what a row's call gives, all 0 if it is not refused."""
    try:
        CALLS[call](hex_of(rules), hex_of(bundle), numbers(args))
    except model.Refusal as refusal:
        return refusal.four
    return (0, 0, 0, 0)


def numbers(cell):
    return [int(word) for word in re.findall(r"[0-9]+", cell.replace(",", " ").replace("none", ""))]


class Documents(unittest.TestCase):
    def test_worked_refusals(self):
        """Each number and each case of the item, and the bytes that the sentences quote at their places."""
        seen, cases = set(), {}
        for case, number, call, rules, bundle, args, side, place, item, words in rows(document("REFUSALS.md"), "## Worked examples"):
            with self.subTest(call=call, rules=rules, bundle=bundle, args=args):
                four = tuple(map(int, (number, side, place, item)))
                self.assertEqual(refusal_of(call, rules, bundle, args), four)
                data = hex_of(rules if call == "read rules" else bundle)
                for at, quoted in re.findall(r"At ([0-9]+) ((?:[0-9A-F]{2} ?)+):", words):
                    self.assertEqual(data[int(at) :].hex(" ").upper()[: len(quoted)], quoted)
                seen.add(four[0])
                cases.setdefault(case, set()).add(four[3])
        self.assertEqual(seen, set(range(13)))
        none = {model.NO_ITEM}
        self.assertEqual(cases, {
            "header": none, "right after the header": {0}, "bytes end before a fact": {1}, "bytes end in a fact": {1},
            "first rule": {0}, "middle rule": {1}, "first fact": {0}, "middle fact": {1}, "last fact": {1, 2}, "broken rule": {1},
            "after the last rule": none, "after the last fact": none, "arguments": none, "record": none,
            "reader started": {1}, "reader's step": none, "not refused": {0},
        })

    def test_examples_of_refusals(self):
        seen = set()
        text = document("REFUSALS.md")
        for number, call, rules, bundle, args, side, place, item in rows(text, "## Examples") + rows(text, "Where two faults meet"):
            with self.subTest(call=call, rules=rules, bundle=bundle, args=args):
                self.assertEqual(refusal_of(call, rules, bundle, args), tuple(map(int, (number, side, place, item))))
                seen.add(int(number))
        self.assertEqual(seen, set(range(1, 12)))

    def test_examples_of_records(self):
        seen = set()
        for number, rules, records, room, side, place, item in rows(document("REFUSALS.md"), "## Examples of records"):
            with self.subTest(records=records):
                four = tuple(map(int, (number, side, place, item)))
                self.assertEqual(refusal_of("write records", rules, "none", f"{records}, {room}"), four)
                seen.add(four[0])
        self.assertEqual(seen, {3, 5, 8, 9, 12})
        with self.assertRaises(model.Refusal) as caught:
            model.write_records(R, [(2, 70000, 1)] * 4097, 0)
        self.assertEqual(caught.exception.four, (4, 2, 0, model.NO_ITEM))

    def test_examples_of_the_reader(self):
        for bytes_, at, gives, item, then in rows(document("REFUSALS.md"), "## Examples of the reader"):
            with self.subTest(bytes=bytes_, at=at):
                if gives.startswith("refusal"):
                    number, place = numbers(gives)
                    with self.assertRaises(model.Refusal) as caught:
                        model.reader_next(hex_of(bytes_), int(at))
                    self.assertEqual((caught.exception.four, then), ((number, 1, place, int(item)), at))
                else:
                    fact = None if gives == "done" else tuple(numbers(gives))
                    self.assertEqual((model.reader_next(hex_of(bytes_), int(at)), item), ((fact, int(then)), "0"))

    def test_records_of_the_worked_site(self):
        row = model.give_records(R, F, 6)
        shown = " ".join(str(tuple(record)) for record in row) + "."
        self.assertIn(f"The records of F: {shown}", document("FORMAT.md"))
        self.assertIn(f"length 6, records {shown}", document("API.md"))
        self.assertEqual(model.write_records(R, row, 17), F)
        self.assertEqual(model.write_records(R, [(1, 9, 0)], 3), bytes.fromhex("01 01 09"))
        steps = [(1, 3), (3, 5), (5, 7), (7, 10), (10, 14), (14, 17)]
        self.assertEqual([model.reader_next(F, at) for at, _ in steps], [(record, then) for record, (_, then) in zip(row, steps)])
        self.assertIn("at 1, 3, 5, 7, 10 and 14; then done at 17. From 12: (300, 64, 12), then at 16 refusal 1 on side 1 at 17.", document("API.md"))

    def test_examples_that_are_accepted(self):
        for call, rules, bundle, args, result in rows(document("REFUSALS.md"), "## Beside them, accepted"):
            with self.subTest(call=call, rules=rules, bundle=bundle, args=args):
                got = CALLS[call](hex_of(rules), hex_of(bundle), numbers(args))
                if call.startswith("read"):
                    self.assertEqual(f"{got} {call.split()[1].replace('bundle', 'facts')}", result)
                elif call == "write kept":
                    self.assertEqual(got, bytes.fromhex(result))
                elif call in ("has", "joins"):
                    self.assertEqual("no" if got is None else f"yes, fact {got}", result)
                else:
                    self.assertEqual(list(got), numbers(result))

    def test_bytes_taken_apart(self):
        text = document("FORMAT.md")
        for heading, whole in (("### R, byte by byte", R), ("### F, byte by byte", F)):
            at = 0
            for place, hex_, _ in rows(text, heading):
                self.assertEqual(int(place), at)
                self.assertEqual(bytes.fromhex(hex_), whole[at : at + len(bytes.fromhex(hex_))])
                at += len(bytes.fromhex(hex_))
            self.assertEqual(at, len(whole))

    def test_numbers_of_the_format(self):
        for hex_, result in rows(document("FORMAT.md"), "### Numbers, examples"):
            data = bytes.fromhex(hex_)
            if result.startswith("refusal"):
                with self.assertRaises(Refused) as caught:
                    number_at(data, 0, 0)
                self.assertEqual(caught.exception.number, numbers(result)[0])
            else:
                value = int(result.replace(",", ""))
                self.assertEqual((number_at(data, 0, 0)[0], number_bytes(value)), (value, data))

    def test_text_of_the_text_document(self):
        blocks = re.findall(r"```text\n(.*?)```", document("TEXT.md"), re.S)
        self.assertGreater(len(blocks), 0)
        for block in blocks:
            read_text(block)

    def test_messages_of_the_text_document(self):
        """Each message that TEXT.md shows comes from a text whose bad line is the one it names."""
        names = "concept Switch\nrole uplink\nthing dev7 = 7\n"
        causes = ("Switch dev8", "uplink dev7", "Switch < uplink", "uplink(7, 9)", "Switch > some uplink", "Switch dev7")
        shown = re.findall(r"^site\.txt:([0-9]+): (.*)$", document("TEXT.md"), re.M)
        self.assertEqual(len(shown), len(causes))
        for (line, message), cause in zip(shown, causes):
            first = "\n" * 8 + "Switch 7\n" if "note" in message else ""
            text = names + first
            text += "\n" * (int(line) - 1 - text.count("\n")) + cause + "\n"
            try:
                told = read_text(text, "site.txt")[1]
            except Faults as faults:
                told = faults.messages
            self.assertEqual(told, [f"site.txt:{line}: {message}"])

    def test_refused_files_of_the_text_document(self):
        """Each refused file that TEXT.md shows is a file of the worked site with one number changed, cut off or added."""
        files = [(R[:12] + b"\5" + R[13:], F), (R[:11] + b"\2" + R[12:], F), (R[:1] + b"\x21" + R[2:], F), (R, F[:7] + b"\x41" + F[8:]), (R, F[:16]), (R, F + b"\0")]
        shown = re.findall(r"^site/(.*\.bin: refused .*)$", document("TEXT.md"), re.M)
        self.assertEqual(len(shown), len(files))
        for message, (rules, bundle) in zip(shown, files):
            folder = new_folder(self)
            put(folder, "rules.bin", rules)
            put(folder, "bundle.bin", bundle)
            self.assertEqual(run("clean", folder), (2, "", f"{folder}/{message}\n"))

    def test_building_by_hand(self):
        folder = new_folder(self)
        text = document("TEXT.md")
        _, printed, _ = run("build", "examples/worked-site/site.txt", "-o", folder)
        self.assertIn(printed.replace(folder, "site"), text)
        self.assertIn(run("listing", folder, stdin=LISTING.encode())[1], text)

    def test_runs_of_clean(self):
        """Each `$ tools/site clean ..` of README, TEXT.md and the man page prints what stands below it; `..` stands for lines left out."""
        pages = [file_of(model.ROOT, "README.md").decode(), document("TEXT.md"), file_of(os.path.join(model.ROOT, "man"), "site.1").decode()]
        runs = 0
        for page in pages:
            for words, shown in re.findall(r"^\$ tools/site (clean .*)\n((?:(?!```|\.fi|\$).*\n)+)", page.replace("\\-", "-"), re.M):
                status, printed, errors = run_process(*words.split())
                self.assertEqual((status, errors), (1, ""))
                first, *last = shown.split("..\n") if "\n..\n" in shown else [shown]
                self.assertTrue(printed.startswith(first) and printed.endswith("".join(last)), words)
                if not last:
                    self.assertEqual(printed, shown)
                runs += 1
        self.assertEqual(runs, 7)

    def test_chain_of_the_empty_role(self):
        """The chain in TEXT.md without a run above it is of document 01's empty role."""
        chain = re.search(r"```\n(1 Camera 7: alone\n.*?)```", document("TEXT.md"), re.S)[1]
        path = put(new_folder(self), "site.txt", EMPTY_ROLE)
        self.assertEqual(run("clean", path, "--explain", "1"), (1, chain, ""))

    def test_examples_of_the_api(self):
        text = document("API.md")
        self.assertEqual(model.mark(R, F, 6, 6), ((6, 1, 1, 4), [2, 2, 0, 2, 2, 1], [1, 0, 65535, 1, 3, 65535]))
        self.assertEqual(model.count(R, F), (6, 1, 1, 4))
        self.assertIn("facts 6, kept 1, alone 1, disputed 4; marks 2 2 0 2 2 1; partners 1 0 65,535 1 3 65,535.", text)
        self.assertEqual((model.ask(R, F, 4), model.ask(R, F, 5)), ((2, 3), (1, 65535)))
        self.assertIn("fact 4 has mark 2, partner 3; fact 5 has mark 1, partner 65,535", text)
        self.assertEqual((model.has(R, F, 64, 9), model.has(R, F, 0, 300), model.has(R, F, 0, 7), model.joins(R, F, 0, 9, 7)), (2, None, None, None))
        self.assertEqual(model.write_kept(R, F, 3), bytes.fromhex("01 01 09"))
        self.assertIn("length 3, bytes `01 01 09`", text)
        self.assertIn(LISTING, text)

    def test_header_and_api_agree(self):
        text = document("API.md")
        header = file_of(os.path.join(model.ROOT, "include"), "dzyunagor.h").decode()
        defined = {name: int(value) for name, value in re.findall(r"#define (DZY_\w+) ([0-9]+)", header)}
        told = {}
        for names, values, _ in rows(text, "## Names"):
            told.update(zip(re.findall(r"\w+", names), [int(v.replace(",", "")) for v in re.split(r", ", values)]))
        self.assertEqual(told, defined)
        functions = re.findall(r"^dzy_\w+ (dzy_\w+)\(", header, re.M)
        self.assertEqual(len(functions), 12)
        self.assertEqual(re.findall(r"^### (dzy_\w+)\(", text, re.M), functions)
        calls = " ".join(row[0] for row in rows(document("REFUSALS.md"), "## Which call gives which"))
        self.assertEqual(sorted(re.findall(r"dzy_\w+", calls)), sorted(functions))
        self.assertEqual((defined["DZY_MOST_FACTS"], defined["DZY_MOST_THING"]), (MOST_FACTS, MOST_NUMBER))

    def test_longest_files(self):
        rules = write_rules(Site([""] * 64, [""] * 32, {}, [(0, 127, 127)] * 512, []))
        bundle = model.bundle_of([(95, 65535 - k, 65535) for k in range(4095, -1, -1)])
        self.assertEqual((len(rules), len(bundle)), (1540, 28674))
        self.assertEqual((model.check_rules(rules), model.check_bundle(rules, bundle)), (512, 4096))
        self.assertIn("1,540 bytes", document("FORMAT.md"))
        self.assertIn("28,674 bytes", document("FORMAT.md"))

    def test_the_programs_page(self):
        page = file_of(os.path.join(model.ROOT, "man"), "cleaner.1").decode()
        self.assertIn(LISTING, page)
        self.assertEqual(model.listing(b"", b""), "refused 1 in rules at 0\n")
        self.assertIn("refused 1 in rules at 0\n", page)

    def test_links_within_the_documents(self):
        docs = os.path.join(model.ROOT, "docs")
        for name in ("TEXT.md", "FORMAT.md", "REFUSALS.md", "API.md", "GLOSSARY.md"):
            for link in re.findall(r"\]\(([^)#]+)\)", document(name)):
                self.assertTrue(os.path.exists(os.path.join(docs, link)), f"{name}: {link}")


if __name__ == "__main__":
    unittest.main()
