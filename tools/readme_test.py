"""Holds README.md to what the drill does: its example, its table of answers, and what it says of limits and losses."""

import os
import re
import subprocess
import sys
import unittest

from parts import replay, text

TOOLS = os.path.dirname(os.path.abspath(__file__))
ROOT = os.path.dirname(TOOLS)
# A test that meets no drill is to fail, and not to prove one.
os.environ["DRILL"] = replay.BUILT


def read(*path):
    with open(os.path.join(ROOT, *path), encoding="utf-8") as file:
        return file.read()


def steps(*lines):
    """Answer and postings of each frame."""
    found = replay.outcomes(text.lines("a test", "\n".join(lines)))
    return [(one.answer, one.posts) for one in found if one.what == "step"]


class Example(unittest.TestCase):
    def test_the_incident_prints_its_output(self):
        done = subprocess.run([sys.executable, os.path.join(TOOLS, "records"), "--run", "examples/incident.txt"],
                              cwd=ROOT, capture_output=True, text=True)
        self.assertEqual((done.stdout, done.stderr, done.returncode), (read("examples", "incident.out"), "", 0))

    def test_readme_shows_exactly_that(self):
        shown = "".join(f"    {line}\n" for line in read("examples", "incident.out").splitlines())
        self.assertIn(f"    tools/records --run examples/incident.txt\n\n{shown}\n", read("README.md"))

    def test_its_retries_are_answered_9_and_change_nothing(self):
        lines = read("examples", "incident.txt").splitlines()
        with_retries = steps(*lines)
        self.assertEqual([answer for answer, _ in with_retries].count(9), 2)
        first_time = [line for number, line in enumerate(lines) if "Retry" not in line or number == 0]
        self.assertEqual(len(first_time), len(lines) - 2)
        self.assertEqual([step for step in with_retries if step[0] != 9], steps(*first_time))

    def test_the_short_text_is_taken_as_it_stands(self):
        shown = read("README.md").split("one record a line, in the order in which it came:\n")[1].split("\nDestinations")[0]
        self.assertEqual(steps(*shown.splitlines()), [(0, ()), (0, ())])


class Answers(unittest.TestCase):
    def test_the_table_has_every_answer_in_the_words_of_the_tools(self):
        rows = re.findall(r"^\| (\d+) \| ([^|]+) \| [^|]{10,} \|$", read("README.md"), re.MULTILINE)
        self.assertEqual({int(number): words for number, words in rows}, replay.ANSWERS)
        self.assertEqual(len(rows), 12)


class Limits(unittest.TestCase):
    def test_the_33rd_payment_is_refused_and_nothing_changes(self):
        day = ["group 2", *(f"multicast 1 {payment} 1" for payment in range(1, 33))]
        self.assertEqual(steps(*day), [(0, (payment,)) for payment in range(1, 33)])
        self.assertEqual(steps(*day, "multicast 1 33 1", "multicast 1 33 1", "multicast 1 32 1")[32:], [(10, ()), (10, ()), (9, ())])

    def test_a_33rd_that_another_ledger_took_stays_open_and_others_wait_behind_it(self):
        full = ["group 2", *(f"multicast 1 {payment} 1" for payment in range(1, 33))]
        self.assertEqual(steps(*full, "multicast 2 33 3", "multicast 1 33 3", "multicast 2 34 2")[32:], [(0, ()), (10, ()), (0, ())])

    def test_nine_ledgers_are_no_group(self):
        for group, what in [(0, "stop"), (1, "group"), (8, "group"), (9, "stop")]:
            self.assertEqual(replay.outcomes(text.lines("a test", f"group {group}"))[0].what, what)

    def test_a_fresh_group_posts_an_old_payment_again(self):
        self.assertEqual(steps("group 1", "multicast 1 7 1", "group 1", "multicast 1 7 1"), [(0, (7,)), (0, (7,))])


class Losses(unittest.TestCase):
    def test_without_a_copy_the_payment_and_those_behind_it_wait(self):
        lost = ["group 2", "multicast 1 7 3", "multicast 2 7 3", "propose 2 7 3 1 1", "multicast 1 8 1", "multicast 1 7 3"]
        self.assertEqual(steps(*lost), [(0, ()), (0, ()), (0, (7,)), (0, ()), (9, ())])

    def test_the_same_copy_delivered_later_lets_both_go(self):
        late = ["group 2", "multicast 1 7 3", "multicast 1 8 1", "propose 1 7 3 2 1", "propose 1 7 3 2 1"]
        self.assertEqual(steps(*late), [(0, ()), (0, ()), (0, (7, 8)), (9, ())])


class Links(unittest.TestCase):
    def test_every_picture_and_example_that_is_named_is_there(self):
        named = re.findall(r"\]\(([^)]+)\)", read("README.md")) + re.findall(r"examples/\w+\.\w+", read("README.md"))
        self.assertGreater(len(named), 4)
        for path in named:
            self.assertTrue(os.path.isfile(os.path.join(ROOT, path)), path)

    def test_make_lists_every_command_of_readme(self):
        listed = subprocess.run(["make", "-s", "--no-print-directory", "-C", ROOT], capture_output=True, text=True)
        self.assertEqual((listed.stderr, listed.returncode), ("", 0))
        commands = set(re.findall(r"^    (make \w+)", read("README.md"), re.MULTILINE))
        self.assertEqual(commands, {"make drill", "make test", "make orders", "make bench"})
        for command in commands:
            self.assertRegex(listed.stdout, rf"(?m)^{command}\b")


if __name__ == "__main__":
    unittest.main()
