"""Tests of the gate, .ci/run: what it makes of what `rt ci` says. `rt` is a stand-in here, in a repository of its own."""

import os
import shutil
import subprocess
import tempfile
import unittest

ROOT = os.path.dirname(os.path.dirname(os.path.abspath(__file__)))
OK = "rt: ok; handles allowed: none; must-fail edits: 4 refused{}; every proof and must-fail edit was done in this run"


class Gate(unittest.TestCase):
    def setUp(self):
        self.home = tempfile.TemporaryDirectory()
        self.addCleanup(self.home.cleanup)
        for folder in [".ci", "bin", "tools"]:
            os.makedirs(self.path(folder))
        shutil.copy(os.path.join(ROOT, ".ci", "run"), self.path(".ci"))

    def path(self, *names):
        return os.path.join(self.home.name, *names)

    def gate(self, *lines, status=0, test=None):
        """What the gate prints where `rt ci`, at the top and without a name, prints these lines; its last line; its exit status."""
        said = "\n".join(lines)
        with open(self.path("bin", "rt"), "w") as file:
            file.write(f'#!/bin/sh\n[ "$PWD" = {self.home.name} ] && [ "$*" = ci ] || exit 9\ncat <<"END"\n{said}\nEND\nexit {status}\n')
        os.chmod(self.path("bin", "rt"), 0o755)
        if test:
            with open(self.path("tools", "some_test.py"), "w") as file:
                file.write(f"import unittest\nclass Some(unittest.TestCase):\n    def test_one(self):\n        {test}\nunittest.main()\n")
        around = dict(os.environ, PATH=f"{self.path('bin')}:{os.environ['PATH']}")
        done = subprocess.run(["bash", self.path(".ci", "run")], cwd="/", env=around, capture_output=True, text=True)
        return done.stdout, done.stdout.splitlines()[-1], done.returncode

    def test_what_passes_is_counted(self):
        self.assertEqual(self.gate("rt: common proved", OK.format(""), "7 passed, 0 failed")[1:], ("7 passed, 0 failed", 0))
        self.assertEqual(self.gate(OK.format(""), "7 passed, 0 failed", test="pass")[1:], ("8 passed, 0 failed", 0))

    def test_what_fails_is_counted(self):
        said = ["rt: FAILED: frame", "5 passed, 2 failed"]
        self.assertEqual(self.gate(*said, status=1)[1:], ("5 passed, 2 failed", 1))
        self.assertEqual(self.gate(*said, status=1, test="self.fail()")[1:], ("5 passed, 3 failed", 1))
        self.assertEqual(self.gate(OK.format(""), "7 passed, 0 failed", test="self.fail()")[1:], ("7 passed, 1 failed", 1))

    def test_bad_edits_fail(self):
        output, last, status = self.gate(OK.format(", 2 bad"), "7 passed, 0 failed")
        self.assertEqual((last, status), ("7 passed, 2 failed", 1))
        self.assertIn("\ngate: must-fail edits that are bad: 2\n", output)
        self.assertEqual(self.gate(OK.format(", 1 of them only by a limit, 1 bad"), "7 passed, 0 failed")[1:], ("7 passed, 1 failed", 1))
        self.assertEqual(self.gate(OK.format(", 1 of them only by a limit"), "7 passed, 0 failed")[1:], ("7 passed, 0 failed", 0))

    def test_a_status_fails_whatever_is_printed(self):
        self.assertEqual(self.gate(OK.format(""), "7 passed, 0 failed", status=2)[1:], ("7 passed, 1 failed", 1))

    def test_what_ends_otherwise_fails(self):
        uncounted = "gate: rt ci did not end with its count"
        for line, told in [(OK.format(""), uncounted), ("7 passed, 0 failed (frame and the crates below alone: not the gate)", uncounted),
                           ("7 passed, 0 failed", "gate: rt ci passed without a line 'rt: ok'")]:
            output, _, status = self.gate(line)
            self.assertEqual(status, 1)
            self.assertIn(told, output)


if __name__ == "__main__":
    unittest.main()
