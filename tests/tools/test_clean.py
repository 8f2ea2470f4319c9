"""The command clean: listings, summaries, statuses, several sites, refused files, and where the program is looked for."""
import os
import shutil
import subprocess
import sys
import unittest
from unittest import mock

sys.dont_write_bytecode = True
sys.path.insert(0, os.path.dirname(os.path.abspath(__file__)))
import model
from common import F, HEAD, LISTING, R, file_of, new_folder, put, run, run_process
from dzysite import clean, program

WORKED, SECOND = "examples/worked-site/site.txt", "examples/second-site/site.txt"
WORKED_SUMMARY = f"{WORKED}: 6 facts, 1 kept, 5 dropped (1 alone, 4 disputed)\n"
SECOND_SUMMARY = f"{SECOND}: 23 facts, 12 kept, 11 dropped (1 alone, 10 disputed)\n"


def run_with(output, *words):
    """The tool with the program's output given by hand."""
    with mock.patch.object(clean, "run_program", lambda *_: output):
        return run(*words)


class OneSite(unittest.TestCase):
    def test_the_two_sites(self):
        for path, summary in ((WORKED, WORKED_SUMMARY), (SECOND, SECOND_SUMMARY)):
            folder = new_folder(self)
            run("build", path, "-o", folder)
            plain = file_of(os.path.join(model.ROOT, os.path.dirname(path)), "listing.txt")
            status, out, errors = run_process("clean", path)
            self.assertEqual((status, errors), (1, ""))
            self.assertEqual(out, run_process("listing", folder, stdin=plain)[1] + summary)
            self.assertEqual(run("clean", path), (status, out, errors))

    def test_disputed_facts_beside_their_partners(self):
        out = run("clean", WORKED)[1]
        self.assertIn("3 uplink dev9 dev7: disputed, partner 1 Camera dev7\n4 uplink dev9 dev300: disputed, partner 3 uplink dev9 dev7\n", out)

    def test_nothing_dropped(self):
        path = put(new_folder(self), "site.txt", HEAD + "disjoint A B\nA x\nB y\n")
        self.assertEqual(run("clean", path), (0, f"facts 2 kept 2 alone 0 disputed 0\n0 A x: kept\n1 B y: kept\n{path}: 2 facts, 2 kept, 0 dropped (0 alone, 0 disputed)\n", ""))
        path = put(new_folder(self), "site.txt", "")
        self.assertEqual(run("clean", path), (0, f"facts 0 kept 0 alone 0 disputed 0\n{path}: 0 facts, 0 kept, 0 dropped (0 alone, 0 disputed)\n", ""))

    def test_only_alone(self):
        path = put(new_folder(self), "site.txt", HEAD + "disjoint A A\nA x\n")
        self.assertEqual(run("clean", path)[0], 1)

    def test_notes_go_to_standard_error(self):
        path = put(new_folder(self), "site.txt", HEAD + "A x\nA 1\n")
        status, out, errors = run("clean", path)
        self.assertEqual((status, errors), (0, f"{path}:8: note: the same fact as in line 7; it is written once\n"))
        self.assertNotIn("note", out)

    def test_bad_text(self):
        path = put(new_folder(self), "site.txt", HEAD + "A z\n")
        status, out, errors = run("clean", path)
        self.assertEqual((status, out), (2, ""))
        self.assertIn(f"{path}:7: expected a thing, found 'z'", errors)
        status, out, errors = run("clean", path + ".none")
        self.assertEqual((status, out, errors), (2, "", f"{path}.none: No such file or directory\n"))

    def test_nothing_is_left_behind(self):
        folder = new_folder(self)
        path = put(folder, "site.txt", HEAD + "A x\n")
        with mock.patch.dict(os.environ, {"TMPDIR": os.path.join(folder, "tmp")}):
            os.mkdir(os.environ["TMPDIR"])
            self.assertEqual(run_process("clean", path)[0], 0)
            self.assertEqual(os.listdir(os.environ["TMPDIR"]), [])
        self.assertEqual(sorted(os.listdir(folder)), ["site.txt", "tmp"])

    def test_output_cut_short(self):
        facts = "".join(f"A {k}\n" for k in range(4096))
        path = put(new_folder(self), "site.txt", "concept A\n" + facts)
        with subprocess.Popen([os.path.join(model.ROOT, "tools", "site"), "clean", path], stdout=subprocess.PIPE, stderr=subprocess.PIPE) as cut:
            cut.stdout.readline()
            cut.stdout.close()
            self.assertEqual((cut.stderr.read(), cut.wait()), (b"", 2))


class Folders(unittest.TestCase):
    def folder(self, rules=R, bundle=F, names=None):
        folder = new_folder(self)
        for name, data in (("rules.bin", rules), ("bundle.bin", bundle), ("names.txt", names)):
            if data is not None:
                put(folder, name, data)
        return folder

    def test_with_and_without_names(self):
        folder = self.folder()
        status, out, errors = run("clean", folder)
        self.assertEqual((status, errors), (1, ""))
        self.assertIn("\n4 R0 9 300: disputed, partner 3 R0 9 7\n", out)
        status, out, _ = run("clean", self.folder(names="concept 0 Switch\nthing 7 dev7\n"))
        self.assertIn("\n0 Switch dev7: disputed, partner 1 C1 dev7\n", out)
        self.assertEqual(sorted(os.listdir(folder)), ["bundle.bin", "rules.bin"])

    def test_refused_files(self):
        for rules, bundle, file, message in (
            (R, "02 00 07 00 07", "bundle.bin", "refused 8 in bundle at 3, in fact 1: a fact not above the one before it"),
            (R, "", "bundle.bin", "refused 1 in bundle at 0, in the header: the bytes end before a number that is due is complete"),
            (R, "80 20", "bundle.bin", "refused 1 in bundle at 2, in fact 0: the bytes end before a number that is due is complete"),
            (R, "02 00 07 02 07", "bundle.bin", "refused 5 in bundle at 3, in fact 1: a concept or role that is not declared, found the code 2"),
            ("01 00 02 00 00 00 05", F, "rules.bin", "refused 11 in rules at 6, in rule 1: a rule kind over 4, found 5"),
            ("01 00 02 00 00 00 80 80 04", F, "rules.bin", "refused 3 in rules at 6, in rule 1: a number with its top bit set on the third byte, or over 65,535"),
            ("01 00 01 00 00 01", F, "rules.bin", "refused 5 in rules at 5, in rule 0: a concept or role that is not declared, found the code 1"),
            ("00 01 02 04 00 02 01 01", F, "rules.bin", "refused 6 in rules at 3, in rule 0: a functional role stands on the right of a kind 2 rule, found rule 1"),
            (R + bytes(70000), F, "rules.bin", "refused 7 in rules at 17, after the last rule: bytes after the last item"),
        ):
            rules, bundle = (bytes.fromhex(data) if isinstance(data, str) else data for data in (rules, bundle))
            folder = self.folder(rules, bundle)
            for words in ((), ("--explain", "0")):
                self.assertEqual(run("clean", folder, *words), (2, "", f"{os.path.join(folder, file)}: {message}\n"))

    def test_missing_files_and_bad_names(self):
        folder = self.folder(bundle=None)
        status, out, errors = run("clean", folder)
        self.assertEqual((status, out), (2, ""))
        self.assertIn(f"{folder}: expected a folder with rules.bin and bundle.bin, found no bundle.bin", errors)
        status, out, errors = run("clean", self.folder(names="concept 9 A\n"))
        self.assertEqual((status, out), (2, ""))
        self.assertIn("names.txt:1: expected a concept of rules.bin, which declares 2, found 9", errors)


class SeveralSites(unittest.TestCase):
    def setUp(self):
        folder = new_folder(self)
        self.good = put(folder, "good.txt", HEAD + "A x\n")
        self.good_summary = f"{self.good}: 1 fact, 1 kept, 0 dropped (0 alone, 0 disputed)\n"
        self.bad = put(folder, "bad.txt", "A x\n")

    def test_a_summary_line_each(self):
        self.assertEqual(run("clean", WORKED, SECOND), (1, WORKED_SUMMARY + SECOND_SUMMARY, ""))
        self.assertEqual(run("clean", SECOND, self.good), (1, SECOND_SUMMARY + self.good_summary, ""))
        self.assertEqual(run("clean", self.good, self.good), (0, self.good_summary * 2, ""))

    def test_the_worst_status(self):
        for sites in ((self.good, self.bad, WORKED), (self.bad, self.good), (WORKED, self.bad)):
            status, out, errors = run("clean", *sites)
            self.assertEqual((status, [line.split(":")[0] for line in out.splitlines()]), (2, list(sites)))
            self.assertIn(f"{self.bad}: not cleaned\n", out)
            self.assertIn(f"{self.bad}:1: expected a declaration, a rule or a fact, found 'A'", errors)

    def test_with_listings(self):
        one, two = run("clean", WORKED)[1], run("clean", SECOND)[1]
        self.assertEqual(run("clean", "--listing", WORKED, SECOND), (1, one + two, ""))

    def test_texts_and_folders(self):
        folder = new_folder(self)
        run("build", WORKED, "-o", folder)
        self.assertEqual(run("clean", folder, WORKED), (1, WORKED_SUMMARY.replace(WORKED, folder) + WORKED_SUMMARY, ""))


class TheProgram(unittest.TestCase):
    def installed(self):
        """The tool in a folder of its own, with a link to it elsewhere, and without a program beside it."""
        folder = new_folder(self)
        os.makedirs(os.path.join(folder, "tools"))
        os.makedirs(os.path.join(folder, "bin"))
        for name in ("site", "x86.sh"):
            shutil.copy(os.path.join(model.ROOT, "tools", name), os.path.join(folder, "tools", name))
        shutil.copytree(os.path.join(model.ROOT, "tools", "dzysite"), os.path.join(folder, "tools", "dzysite"))
        os.symlink(os.path.join(folder, "tools", "site"), os.path.join(folder, "bin", "site"))
        return folder

    def run_installed(self, folder, *words, path=None):
        environment = dict(os.environ, PATH=os.pathsep.join(([path] if path else []) + os.environ["PATH"].split(os.pathsep)))
        done = subprocess.run([os.path.join(folder, "bin", "site"), "clean", WORKED, *words], capture_output=True, cwd=model.ROOT, env=environment)
        return done.returncode, done.stdout.decode(), done.stderr.decode()

    def test_on_the_path(self):
        folder = self.installed()
        os.symlink(program.BUILT, os.path.join(folder, "bin", "cleaner"))
        self.assertEqual(self.run_installed(folder, path=os.path.join(folder, "bin")), run("clean", WORKED))

    @unittest.skipIf(shutil.which("cleaner"), "a cleaner is installed")
    def test_not_there(self):
        folder = self.installed()
        status, out, errors = self.run_installed(folder)
        self.assertEqual((status, out), (2, ""))
        self.assertIn(f"found neither {os.path.join(os.path.realpath(folder), 'target', 'bin', 'cleaner')} nor 'cleaner' on the PATH; 'make run' builds it, or name it with --program PATH", errors)
        self.assertEqual(self.run_installed(folder, "--program", program.BUILT), run("clean", WORKED))

    def test_named(self):
        self.assertEqual(run("clean", WORKED, "--program", "target/bin/cleaner"), run("clean", WORKED))
        for path in ("none", "README.md", "tools"):
            self.assertEqual(run("clean", WORKED, "--program", path), (2, "", f"{path}: expected the program cleaner, found no program there\n"))

    def test_a_program_that_fails(self):
        status, out, errors = run("clean", WORKED, "--program", shutil.which("false"))
        self.assertEqual((status, out), (2, ""))
        self.assertIn("the program did not run to its end", errors)

    def test_other_output(self):
        for output, message in (
            ("", "the program's output: expected the cleaner's output, each line ended by a newline"),
            ("hello\n", "line 1: expected 'facts N kept N alone N disputed N', found 'hello'"),
            (LISTING.replace("facts 6", "facts 5"), "line 1: expected 6 facts, as in bundle.bin, found 5"),
            ("refused 8 in bundle at 3\n", "refused 8 in bundle at 3"),
        ):
            status, out, errors = run_with(output, "clean", WORKED)
            self.assertEqual((status, out), (2, ""))
            self.assertIn(message, errors)

    def test_a_mark_that_the_rules_do_not_give(self):
        lost = LISTING.replace("kept 1 alone 1 disputed 4", "kept 0 alone 2 disputed 4").replace("2 kept", "2 alone")
        status, out, errors = run_with(lost, "clean", WORKED, "--explain", "2")
        self.assertEqual((status, out), (2, ""))
        self.assertIn("the program says '2 Camera dev9: alone', and by the rules it is '2 Camera dev9: kept'; one of the two is wrong", errors)
        kept = LISTING.replace("kept 1 alone 1 disputed 4", "kept 2 alone 0 disputed 4").replace("5 alone", "5 kept")
        status, out, errors = run_with(kept, "clean", WORKED, "--explain", "5")
        self.assertEqual((status, out), (2, ""))
        self.assertIn("the program says '5 uplink 12 12: kept', and by the rules it is '5 uplink 12 12: alone'", errors)
        other = LISTING.replace("4 disputed 3", "4 disputed 5")
        self.assertEqual(run_with(other, "clean", WORKED, "--explain", "4")[0], 2)

    def test_bad_usage(self):
        for words in ((), ("clean",), ("clean", WORKED, "--explain"), ("clean", WORKED, "--unknown"), ("tidy", WORKED)):
            self.assertEqual(run(*words)[:2], (2, ""))
        self.assertEqual(run_process("clean", WORKED, WORKED, "--explain", "0")[:2], (2, ""))


if __name__ == "__main__":
    unittest.main()
