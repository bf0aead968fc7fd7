"""Tests of picture, the program beside this file, and of the pictures in docs/."""

import os
import re
import subprocess
import sys
import unittest
import xml.etree.ElementTree as tree

from parts import canvas, replay, story, text

TOOLS = os.path.dirname(os.path.abspath(__file__))
ROOT = os.path.dirname(TOOLS)
SVG = "{http://www.w3.org/2000/svg}"


def run(given, *arguments, drill=replay.BUILT):
    """The output, the complaint and the exit status. A test that meets no drill is to fail, and not to prove one."""
    done = subprocess.run([sys.executable, os.path.join(TOOLS, "picture"), *arguments], input=given.encode(),
                          capture_output=True, env=dict(os.environ, DRILL=drill))
    return done.stdout.decode(), done.stderr.decode(), done.returncode


def read(*path):
    with open(os.path.join(ROOT, *path), encoding="utf-8") as file:
        return file.read()


def words(svg):
    return [element.text for element in tree.fromstring(svg).iter(f"{SVG}text")]


def frames(svg, manner):
    """The arrows of frames that were met in this manner, without the one that the legend shows."""
    return [line for line in tree.fromstring(svg).iter(f"{SVG}line") if line.get("class") == f"frame {manner}"][:-1]


def events(*lines):
    os.environ["DRILL"] = replay.BUILT
    return story.events(replay.outcomes(text.lines("a test", "\n".join(lines))))


class Pictures(unittest.TestCase):
    def test_the_pictures_in_docs_are_those_of_the_examples(self):
        for name in ["incident", "case_l", "four"]:
            drawn, complaint, status = run(read("examples", f"{name}.txt"))
            self.assertEqual((complaint, status), ("", 0))
            self.assertEqual(drawn, read("docs", f"{name}.svg"), f"tools/picture examples/{name}.txt > docs/{name}.svg")

    def test_the_text_of_case_l_is_case_l(self):
        made = b"".join(line.record for line in text.lines("case_l.txt", read("examples", "case_l.txt")))
        digits = re.sub(r"#.*|\s", "", read("tests", "drill", "examples", "case_l.records"))
        self.assertEqual(made, bytes.fromhex(digits))

    def test_answers_are_told_apart_by_words_dashes_and_marks(self):
        svg, _, status = run("group 2\nmulticast 1 7 3\nmulticast 1 7 3\nmulticast 1 0 3\n")
        self.assertEqual(status, 0)
        self.assertEqual([len(frames(svg, manner)) for manner in ["taken", "repeat", "refused"]], [1, 1, 1])
        for told in ["proposes time 1 for 7", "a repeat of 7: nothing changes", "refused (4): payment number 0"]:
            self.assertIn(told, words(svg))
        self.assertRegex(svg, r"\.repeat \{ stroke-dasharray: 8 5; \}")
        self.assertRegex(svg, r"\.refused \{ stroke-dasharray: 2 4; \}")

    def test_postings_stamps_and_what_is_left_are_written_down(self):
        svg, _, _ = run("group 2\nmulticast 1 7 1\nmulticast 1 8 3\n")
        told = words(svg)
        for wanted in ["own time 1 for 7", "stamp of 7: (1, 1)", "posts 7", "posted 7", "not posted: 8", "posted nothing"]:
            self.assertIn(wanted, told)

    def test_a_proposal_comes_from_where_it_was_sent(self):
        svg, _, _ = run("group 2\nmulticast 1 7 3\nmulticast 1 8 3\npropose 2 8 3 1 2\n")
        first, second, proposal = frames(svg, "taken")
        self.assertEqual(proposal.get("y1"), second.get("y2"))
        self.assertGreater(float(proposal.get("y2")), float(proposal.get("y1")))
        self.assertNotEqual(first.get("y2"), second.get("y2"))

    def test_a_proposal_that_nobody_sent_is_told(self):
        sent = "group 2\nmulticast 1 7 3\npropose 2 7 3 1 1\n"
        self.assertNotIn("(its sending is not in this run)", " ".join(words(run(sent)[0])))
        for record in ["propose 2 7 3 1 2", "propose 2 8 3 1 1", "propose 1 7 3 2 1", "propose 2 7 7 1 1"]:
            svg = run(f"group 3\nmulticast 1 7 3\n{record}\n")[0]
            self.assertIn("(its sending is not in this run)", " ".join(words(svg)), record)

    def test_a_fresh_group_and_a_stop_are_drawn(self):
        told = words(run("group 1\nmulticast 1 7 1\ngroup 2\nmulticast 3 7 1\n")[0])
        self.assertIn("a fresh group of 2 ledgers", told)
        self.assertIn("the drill stops here: the group has ledgers 1 to 2, there is no ledger 3", told)

    def test_no_words_leave_the_picture_and_none_lie_on_others(self):
        large = "\n".join(["group 8", *(f"multicast {ledger} 4294967295 255" for ledger in range(1, 9)),
                           *(f"propose {ledger} 4294967295 255 8 1" for ledger in range(1, 8)), "propose 8 7 255 9 1"])
        for given in [large, *(read("examples", f"{name}.txt") for name in ["incident", "case_l", "four"])]:
            boxes = []
            for element in tree.fromstring(run(given)[0]).iter(f"{SVG}text"):
                wide, x, y = canvas.wide(element.text, 6), float(element.get("x")), float(element.get("y"))
                x -= wide / 2 if element.get("text-anchor") == "middle" else 0
                self.assertTrue(0 <= x and x + wide <= 900, element.text)
                for left, right, line, other in boxes:
                    apart = x >= right or x + wide <= left or abs(y - line) >= 12
                    self.assertTrue(apart, f"'{element.text}' lies on '{other}'")
                boxes.append((x, x + wide, y, element.text))

    def test_the_title_is_the_first_comment_and_is_escaped(self):
        self.assertEqual(words(run("# Tills <1> & 2\n# more\ngroup 1\n")[0])[0], "Tills <1> & 2")
        self.assertEqual(words(run("group 1 # beside\n")[0])[0], "A run of the drill")

    def test_what_cannot_be_drawn_is_told(self):
        self.assertEqual(run("group\n")[::2], ("", 1))
        self.assertIn("standard input:1: group has 0 values", run("group\n")[1])
        self.assertIn("no/such/drill cannot be run", run("group 1\n", drill="no/such/drill")[1])
        self.assertEqual(run("", "one.txt", "two.txt")[::2], ("", 2))
        self.assertIn("usage: picture", run("", "--help")[0])


class Stories(unittest.TestCase):
    def test_the_worked_out_stamps_are_those_by_which_the_drill_posts(self):
        lines = read("examples", "four.txt").splitlines()
        _, ledgers = events(*lines)
        posted = {number: ledger.posted for number, ledger in ledgers.items()}
        self.assertEqual(posted, {1: [21], 2: [22, 21], 3: [22, 21], 4: [22, 23]})
        stamps = {21: (2, 3), 22: (2, 2), 23: (2, 4)}
        for ledger in ledgers.values():
            self.assertEqual(ledger.stamps, {payment: stamps[payment] for payment in ledger.stamps})
            self.assertEqual(ledger.posted, sorted(ledger.posted, key=stamps.get))

    def test_the_clock_follows_the_stamps(self):
        found, _ = events("group 2", "propose 1 7 3 2 5", "multicast 1 7 3", "multicast 1 8 3")
        self.assertEqual([event.own_time for event in found], [0, 0, 1, 6])
        self.assertEqual(found[2].stamp, (5, 2))


if __name__ == "__main__":
    unittest.main()
