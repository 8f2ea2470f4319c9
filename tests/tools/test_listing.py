"""The command listing: the cleaner's output with names, and outputs that are none."""
import os
import sys
import unittest

sys.dont_write_bytecode = True
sys.path.insert(0, os.path.dirname(os.path.abspath(__file__)))
from common import LISTING, new_folder, put, run


class Listing(unittest.TestCase):
    def build(self, name):
        folder = new_folder(self)
        run("build", f"examples/{name}/site.txt", "-o", folder)
        return folder

    def test_listing_with_names(self):
        folder = self.build("worked-site")
        status, out, errors = run("listing", folder, stdin=LISTING.encode())
        self.assertEqual((status, errors), (0, ""))
        self.assertEqual(out.split("\n")[:5], [
            "facts 6 kept 1 alone 1 disputed 4",
            "0 Switch dev7: disputed, partner 1 Camera dev7",
            "1 Camera dev7: disputed, partner 0 Switch dev7",
            "2 Camera dev9: kept",
            "3 uplink dev9 dev7: disputed, partner 1 Camera dev7",
        ])
        self.assertEqual(out.split("\n")[6], "5 uplink 12 12: alone")

    def test_listing_of_another_site(self):
        folder = self.build("worked-site")
        for bad, message in (
            ("", "output: expected the cleaner's output"),
            (LISTING[:-1], "output: expected the cleaner's output"),
            (LISTING.replace("facts 6", "facts 5"), "line 1: expected 6 facts"),
            (LISTING.replace("5 alone\n", ""), "expected 6 lines after the first, found 5"),
            (LISTING.replace("2 kept", "3 kept"), "line 4: expected '2 kept'"),
            (LISTING.replace("2 kept", "2 lost"), "line 4: expected '2 kept'"),
            (LISTING.replace("4 disputed 3", "4 disputed 6"), "line 6: expected another fact's number"),
            (LISTING.replace("4 disputed 3", "4 disputed 4"), "line 6: expected another fact's number"),
            (LISTING.replace("kept 1 alone 1", "kept 2 alone 0"), "the counts are not those"),
            (LISTING.replace("2 kept", "02 kept"), "line 4"),
        ):
            status, out, errors = run("listing", folder, stdin=bad.encode())
            self.assertEqual((status, out), (1, ""))
            self.assertIn(message, errors)

    def test_listing_of_a_refusal(self):
        """The refusal of the folder's files is told with its item; another output is told too."""
        folder = self.build("worked-site")
        line = "refused 8 in bundle at 3"
        status, out, errors = run("listing", folder, stdin=f"{line}\n".encode())
        self.assertEqual((status, out, errors), (1, "", f"output: line 1: expected 'facts N kept N alone N disputed N', found '{line}'\n"))
        told = f"{put(folder, 'bundle.bin', bytes.fromhex('02 00 07 00 07'))}: {line}, in fact 1: a fact not above the one before it\n"
        self.assertEqual(run("listing", folder, stdin=f"{line}\n".encode()), (1, "", told))
        for other in (LISTING, "refused 8 in bundle at 2\n", "refused 9 in bundle at 3\n", ""):
            first = other.split("\n")[0]
            self.assertEqual(run("listing", folder, stdin=other.encode()), (1, "", f"{told}output: expected '{line}', found '{first}'\n"))


if __name__ == "__main__":
    unittest.main()
