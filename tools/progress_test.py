"""Tests of progress, the program beside this file."""

import importlib.machinery
import importlib.util
import os
import shutil
import subprocess
import sys
import tempfile
import unittest

TOOLS = os.path.dirname(os.path.abspath(__file__))
ROOT = os.path.dirname(TOOLS)
PROGRESS = os.path.join(TOOLS, "progress")

CRATES = """\
# Words.
common:
# Frames.
frame: common
ledger: common frame
drill: common frame io
"""


def load():
    loader = importlib.machinery.SourceFileLoader("progress", PROGRESS)
    module = importlib.util.module_from_spec(importlib.util.spec_from_loader("progress", loader))
    sys.dont_write_bytecode = True
    loader.exec_module(module)
    return module


class Heard(unittest.TestCase):
    """What is told of lines that a command prints, half a second after each other."""

    def setUp(self):
        self.now = 0.0
        self.told = []
        self.teller = load().Teller("test", 3, 2, self.told.append, clock=lambda: self.now)

    def hear(self, *lines):
        for line in lines:
            self.now += 0.5
            self.teller.hear(line)
        return self.told

    def test_a_proved_crate_is_counted(self):
        told = self.hear("fn frame::read: proved", "rt: common proved", "noise", "rt: frame proved")
        self.assertEqual(told, ["test: crate 1 of 3: common proved (1 s so far)",
                                "test: crate 2 of 3: frame proved (2 s so far)"])

    def test_unchanged_crates_are_counted_and_told_at_the_end(self):
        self.hear("rt: common is kept: an earlier run on this machine proved the same files over the same libraries", "rt: frame proved")
        self.teller.end(0, "target/test.log", [])
        self.assertEqual(self.told, ["test: crate 2 of 3: frame proved (1 s so far)",
                                     "test: done in 1 s; 1 of 3 crates are unchanged since they were last proved"])

    def test_what_a_program_is_built_from_is_counted(self):
        lines = ["rt: chose --jobs 2 for frame", "fn frame::read: proved", "statements std: modules loaded=5 checked=0",
                 "library common: modules loaded=0 checked=0", "crate frame: modules loaded=0 checked=40",
                 "logic=proved functions=4 sum=0a",
                 "library common: modules loaded=0 checked=0", "library frame: modules loaded=0 checked=0",
                 "crate drill: modules loaded=9 checked=2", "logic=proved functions=9 axioms=8 sum=0a", "rt: running out/drill"]
        self.hear(*lines)
        self.teller.end(0, "target/drill.log", [])
        self.assertEqual(self.told, ["test: crate 1 of 3: frame proved (3 s so far)", "test: crate 2 of 3: drill proved (5 s so far)",
                                     "test: done in 6 s; 1 of 3 crates are unchanged since they were last proved"])

    def test_a_program_that_is_built_already_is_told(self):
        self.hear("rt: nothing has changed since the last proved build, by out/drill.stamp, so nothing is checked now")
        self.teller.end(0, "target/drill.log", [])
        self.assertEqual(self.told, ["test: done in 0 s; 3 of 3 crates are unchanged since they were last proved"])

    def test_wrong_versions_programs_and_tests_are_told(self):
        told = self.hear("rt: frame: trying its must-fail edits (2)",
                         "rt: must-fail frame/too_long_is_read.edit: refused, as it must be: note: src/lib.rt:16:5: it is not proved",
                         "rt: drill ran, and wrote what its file stdout has",
                         "rt: drill ran (built by Rattle's own compiler), and wrote what its file stdout has",
                         "     Running tests/gate.rs (target/cargo/release/deps/gate-4d)",
                         "test result: ok. 10 passed; 0 failed; 0 ignored; 0 measured",
                         "test result: ok. 0 passed; 0 failed; 0 ignored; 0 measured", "Ran 8 tests in 0.967s")
        self.assertEqual([line.removeprefix("test: ").partition(" (")[0] for line in told],
                         ["trying the wrong versions of frame, 2 in all",
                          "wrong version 1 of 2: frame/too_long_is_read refused", "program drill ran as it should",
                          "tests/gate.rs: 10 tests passed, 0 failed", "8 tests of the tools ran"])

    def test_a_failure_shows_its_lines_and_the_log(self):
        lines = ["rt: frame NOT PROVED", "rt: must-fail frame/a.edit: NOT REFUSED: the crate is still proved with this edit",
                 "test honest ... FAILED", "FAIL: test_a (records_test)"]
        self.hear("src/lib.rt:3:5: error[unknown-name]: no such name", "fn frame::put: proved", *lines,
                  "rt: ledger NOT PROVED: its library frame failed")
        self.teller.end(1, "target/test.log", ["not this"])
        self.assertEqual(self.told[:-1], ["    src/lib.rt:3:5: error[unknown-name]: no such name", *(f"    {line}" for line in lines)])
        self.assertEqual(self.told[-1], "test: FAILED after 4 s, exit status 1; all that was printed is in target/test.log")

    def test_each_sort_of_failure_is_shown(self):
        lines = ["./proofs/read/Answers.antt:8:13: error: `returns`: the two types differ",
                 "note: src/lib.rt:12:5: it is not proved that the sum fits its type", "fn frame::read: not proved",
                 "rt: the library frame did not build, so nothing above it was checked", "rt: run rt fmt in the crate's folder",
                 "rt: counter: crates.txt lists libc or os, which reach past the handles: call std instead",
                 "rt: no check reads /here/target/a.rt: a .rt file goes in src/",
                 "rt: must-fail frame/a.edit: BAD EDIT: an 'old:' text is in src/lib.rt 0 times, and not once",
                 "rt: must-fail frame/b.edit: NOT TRIED: its check was killed",
                 "rt: drill: what the program wrote, out/stdout, is not what its file stdout has: they differ first at byte 1, line 1",
                 "rt: drill: the program ended with status 1, and not 0; it said: ", "rt: FAILED: drill (run)",
                 "gate: must-fail edits that are bad: 1"]
        self.hear("rt: must-fail frame/c.edit: refused, as it must be: note: src/lib.rt:16:5: it is not proved", *lines)
        self.assertEqual(self.teller.failures, lines)

    def test_a_failure_that_says_nothing_known_shows_its_last_lines(self):
        self.teller.end(2, "target/test.log", ["strange", "things"])
        self.assertEqual(self.told[:2], ["    strange", "    things"])

    def test_the_count_of_the_gate_is_the_last_line(self):
        self.hear("3 passed, 0 failed", "more", "176 passed, 0 failed")
        self.teller.end(0, "target/test.log", [])
        self.assertEqual(self.told[-1], "176 passed, 0 failed")


class Whole(unittest.TestCase):
    """The program in a small repository of its own, so that no log of this one is lost."""

    def setUp(self):
        self.home = tempfile.TemporaryDirectory()
        self.addCleanup(self.home.cleanup)
        os.makedirs(self.path("tools"))
        os.makedirs(self.path("crates", "frame", "must-fail"))
        shutil.copy(PROGRESS, self.path("tools"))
        for name in ["a.edit", "b.edit", "notes.txt"]:
            open(self.path("crates", "frame", "must-fail", name), "w").close()
        with open(self.path("crates.txt"), "w") as file:
            file.write(CRATES)

    def path(self, *names):
        return os.path.join(self.home.name, *names)

    def run_it(self, *words):
        done = subprocess.run([sys.executable, self.path("tools", "progress"), *words], capture_output=True, text=True)
        return done.stdout, done.stderr.splitlines(), done.returncode

    def log(self, name):
        with open(self.path("target", name)) as file:
            return file.read()

    def test_only_crates_of_this_repository_are_counted(self):
        _, told, status = self.run_it("drill", "drill", "--", "echo", "rt: common proved")
        self.assertEqual(status, 0)
        self.assertTrue(told[0].startswith("drill: crate 1 of 3: common proved ("), told)
        _, told, _ = self.run_it("test", "all", "--", "echo", "rt: common proved")
        self.assertTrue(told[0].startswith("test: crate 1 of 4: common"), told)
        _, told, _ = self.run_it("test", "all", "--", "echo", "rt: must-fail frame/a.edit: refused, as it must be: note")
        self.assertTrue(told[0].startswith("test: wrong version 1 of 2: frame/a refused"), told)

    def test_the_log_has_everything_even_if_target_is_removed(self):
        os.makedirs(self.path("target"))
        script = f"echo one; rm -rf {self.path('target')}; echo two >&2; exit 7"
        output, told, status = self.run_it("test", "all", "--", "sh", "-c", script)
        self.assertEqual((output, status, self.log("test.log")), ("", 7, "one\ntwo\n"))
        self.assertEqual(told[:2], ["    one", "    two"])
        self.assertIn("exit status 7", told[2])

    def test_a_command_that_is_not_there_is_told(self):
        _, told, status = self.run_it("drill", "drill", "--", "no-such-prover")
        self.assertTrue(told[0].startswith("    no-such-prover cannot be run: No such file or directory"), told)
        self.assertEqual(status, 1)

    def test_an_interrupted_run_leaves_its_log(self):
        # A second for the line to be read: what is still in the pipe at the signal is lost.
        _, told, status = self.run_it("drill", "drill", "--", "sh", "-c", "echo one; sleep 1; kill -TERM $PPID; exec sleep 20")
        self.assertEqual((told[0], status, self.log("drill.log")), ("    interrupted", 1, "one\n"))

    def test_a_command_ended_by_a_signal_has_failed(self):
        self.assertEqual(self.run_it("drill", "drill", "--", "sh", "-c", "kill -9 $$")[2], 1)

    def test_a_wrong_usage_is_told(self):
        for words in [[], ["drill"], ["drill", "--", "true"], ["drill", "drill", "--"]]:
            _, told, status = self.run_it(*words)
            self.assertEqual((status, len(told)), (2, 1), words)


if __name__ == "__main__":
    unittest.main()
