"""Tests of records, the program beside this file (or the one RECORDS names)."""

import os
import random
import subprocess
import sys
import tempfile
import unittest

from parts import replay

TOOLS = os.path.dirname(os.path.abspath(__file__))
ROOT = os.path.dirname(TOOLS)
RECORDS = os.environ.get("RECORDS", os.path.join(TOOLS, "records"))

CASE_L = """\
# Case L: two payments that tie in time.
group 2
multicast 1 7 3
multicast 2 9 3
multicast 1 9 3
multicast 2 7 3

propose 1 7 3 2 2   # from ledger 2, time 2
propose 1 9 3 2 1
propose 2 9 3 1 2
propose 2 7 3 1 1
"""

CASE_L_BYTES = bytes.fromhex("""
    10 02
    11 01 00000007 03
    11 02 00000009 03
    11 01 00000009 03
    11 02 00000007 03
    12 01 00000007 03 02 0002
    12 01 00000009 03 02 0001
    12 02 00000009 03 01 0002
    12 02 00000007 03 01 0001
""")


def run(given, *arguments, drill=None):
    """The output, the complaint and the exit status."""
    given = given if isinstance(given, bytes) else given.encode()
    # A test that meets no drill is to fail, and not to prove one.
    around = dict(os.environ, DRILL=drill or replay.BUILT)
    done = subprocess.run([sys.executable, RECORDS, *arguments], input=given, capture_output=True, env=around)
    return done.stdout, done.stderr.decode(), done.returncode


def ran(text, *arguments):
    output, complaint, status = run(text, "--run", *arguments)
    return output.decode().splitlines(), complaint, status


class TextToRecords(unittest.TestCase):
    def test_case_l_becomes_its_bytes(self):
        self.assertEqual(run(CASE_L), (CASE_L_BYTES, "", 0))

    def test_standard_input_may_be_named(self):
        self.assertEqual(run(CASE_L, "-"), (CASE_L_BYTES, "", 0))

    def test_several_files_are_one_text(self):
        with tempfile.NamedTemporaryFile("w", suffix=".txt") as file:
            file.write("group 2")
            file.flush()
            made = bytes.fromhex("10 02 11 01 00000007 03 10 02")
            self.assertEqual(run("multicast 1 7 3", file.name, "-", file.name), (made, "", 0))

    def test_nothing_gives_nothing(self):
        for text in ["", "\n\n", "  # only a comment", "\r\n"]:
            self.assertEqual(run(text), (b"", "", 0), text)

    def test_values_may_be_hex_and_fill_their_fields(self):
        wanted = bytes.fromhex("12 ff ffffffff ff ff ffff")
        text = "propose 0xff 0xFFFFFFFF 255 0XFF 65535"
        self.assertEqual(run(text), (wanted, "", 0))
        zeros = "propose 0 0x0000000000000 000000000000 0 0"
        self.assertEqual(run(zeros), (bytes.fromhex("12 00 00000000 00 00 0000"), "", 0))

    def test_lawless_values_that_fit_are_let_through(self):
        text = "group 9\r\nmulticast 9 0 0"
        self.assertEqual(run(text), (bytes.fromhex("10 09 11 09 00000000 00"), "", 0))

    def test_a_bad_line_tells_file_line_and_what_was_expected(self):
        number = "expected a number from 0 to {}, decimal or 0x hex"
        bad = {
            "group 256": "the number of ledgers 256 does not fit: " + number.format(255),
            "multicast 1 4294967296 3": "the payment 4294967296 does not fit: " + number.format(4294967295),
            "propose 1 7 3 2 0x10000": "the time 0x10000 does not fit: " + number.format(65535),
            "multicast 1 -7 3": "the payment '-7' is not a number: " + number.format(4294967295),
            "multicast 1 1_0 3": "the payment '1_0' is not a number: " + number.format(4294967295),
            "multicast 1 0x 3": "the payment '0x' is not a number: " + number.format(4294967295),
            "multicast 1 7": "multicast has 2 values: expected 'multicast TARGET PAYMENT DESTINATIONS'",
            "group": "group has 0 values: expected 'group NUMBER-OF-LEDGERS'",
            "propose 6": "propose has 1 value: expected 'propose TARGET PAYMENT DESTINATIONS SOURCE TIME'",
            "Group 2": "'Group' is not a record: expected one of group, multicast, propose",
        }
        for line, why in bad.items():
            text = f"group 2\n\n{line}\nmulticast 1 7 3\n"
            self.assertEqual(run(text), (b"", f"records: standard input:3: {why}\n", 1))

    def test_a_bad_line_of_a_file_names_the_file(self):
        with tempfile.NamedTemporaryFile("w", suffix=".txt") as file:
            file.write("group 2\nbank 3\n")
            file.flush()
            output, complaint, status = run("group 2", "-", file.name)
            self.assertEqual((output, status), (b"", 1))
            self.assertTrue(complaint.startswith(f"records: {file.name}:2: 'bank' is not a record"), complaint)

    def test_a_very_long_number_is_refused_in_a_short_sentence(self):
        output, complaint, status = run("group " + "9" * 10_000)
        self.assertEqual((output, status), (b"", 1))
        self.assertTrue(complaint.startswith("records: standard input:1: the number of ledgers 999"))
        self.assertLess(len(complaint), 200)

    def test_a_file_that_is_not_there_is_refused(self):
        output, complaint, status = run("", "/no/such/file")
        self.assertEqual((output, status), (b"", 1))
        self.assertEqual(complaint, "records: /no/such/file: cannot be read: No such file or directory\n")

    def test_help_and_a_wrong_option(self):
        output, complaint, status = run("", "--help")
        self.assertEqual((complaint, status), ("", 0))
        for word in [b"--read", b"--run", b"multicast TARGET PAYMENT DESTINATIONS", b"standard input"]:
            self.assertIn(word, output)
        self.assertEqual(run("", "--raed"), (b"", "records: no option --raed here; records --help tells what there is\n", 2))


class RecordsToText(unittest.TestCase):
    def test_case_l_can_be_read(self):
        output, complaint, status = run(CASE_L_BYTES, "--read")
        self.assertEqual((complaint, status), ("", 0))
        lines = output.decode().splitlines()
        self.assertEqual(lines[0], "group 2                     # 2 ledgers, all fresh")
        self.assertEqual(lines[1], "multicast 1 7 3             # payment 7, for ledgers 1, 2, reaches ledger 1")
        self.assertEqual(lines[5], "propose 1 7 3 2 2           # ledger 2 proposes time 2 for payment 7, for ledgers 1, 2; "
                                   "it reaches ledger 1")
        self.assertEqual(len(lines), 9)

    def test_destinations_are_told_as_ledgers(self):
        told = {0x00: "no ledger", 0x01: "ledger 1", 0x80: "ledger 8", 0xff: "ledgers 1, 2, 3, 4, 5, 6, 7, 8"}
        for byte, ledgers in told.items():
            output = run(bytes.fromhex("11 01 00000007") + bytes([byte]), "--read")[0].decode()
            self.assertTrue(output.endswith(f"# payment 7, for {ledgers}, reaches ledger 1\n"), output)

    def test_what_is_read_turns_back_into_the_same_bytes(self):
        chance = random.Random(5)
        for _ in range(20):
            lengths = [(kind, length) for kind, length in [(16, 1), (17, 6), (18, 9)] for _ in range(5)]
            chance.shuffle(lengths)
            data = b"".join(bytes([kind]) + chance.randbytes(length) for kind, length in lengths)
            output, complaint, status = run(data, "--read")
            self.assertEqual((complaint, status), ("", 0))
            self.assertEqual(run(output), (data, "", 0))

    def test_a_cut_record_and_an_unknown_kind_are_told_after_what_can_be_read(self):
        whole = bytes.fromhex("12 01 00000007 03 02 0002")
        for length in range(1, len(whole)):
            self.assertEqual(run(whole[:length], "--read"),
                             (b"", f"records: standard input: byte 0: cut short: expected 10 bytes for a propose, found {length}\n", 1))
        start = bytes.fromhex("10 02")
        shown = run(start, "--read")[0]
        self.assertEqual(run(start + bytes.fromhex("11 01 0000"), "--read"),
                         (shown, "records: standard input: byte 2: cut short: expected 7 bytes for a multicast, found 4\n", 1))
        self.assertEqual(run(start + b"\x13\x01", "--read"),
                         (shown, "records: standard input: byte 2: no record has kind 19: "
                                 "expected one of 16 (group), 17 (multicast), 18 (propose)\n", 1))


class Run(unittest.TestCase):
    def test_each_line_stands_beside_its_answer(self):
        lines, complaint, status = ran(CASE_L)
        self.assertEqual((complaint, status), ("", 0))
        self.assertEqual(lines[0], "# Case L: two payments that tie in time.")
        self.assertEqual(lines[1], "group 2           | a fresh group of 2 ledgers")
        self.assertEqual(lines[2], "multicast 1 7 3   | ledger 1: taken")
        self.assertEqual(lines[6], "")
        self.assertEqual(lines[7], "propose 1 7 3 2 2 | ledger 1: taken                      # from ledger 2, time 2")
        self.assertEqual(lines[8], "propose 1 9 3 2 1 | ledger 1: taken; posts 9, 7")
        self.assertEqual(lines[-1], "= 8 frames: 8 taken, 0 repeats, 0 refused; 4 postings")

    def test_a_repeat_and_a_refusal_are_told(self):
        lines, _, status = ran("group 2\nmulticast 1 7 3\nmulticast 1 7 3\nmulticast 1 0 3\npropose 1 7 3 2 0")
        self.assertEqual(status, 0)
        told = [line.split(" | ")[1] for line in lines[2:5]]
        self.assertEqual(told, ["ledger 1: a repeat, nothing changed", "ledger 1: refused, answer 4: payment number 0",
                                "ledger 1: refused, answer 7: wrong time"])
        self.assertEqual(lines[-1], "= 4 frames: 1 taken, 1 repeat, 2 refused; 0 postings")

    def test_where_the_drill_stops_is_told(self):
        stops = {
            "group 9": "a group has 1 to 8 ledgers",
            "group 2\nmulticast 3 7 3": "the group has ledgers 1 to 2, there is no ledger 3",
            "multicast 1 7 3": "no group is set up yet",
        }
        for text, why in stops.items():
            lines, _, status = ran(text + "\ngroup 1\n")
            self.assertEqual(status, 1)
            self.assertTrue(lines[-3].endswith(f"| the drill stops here: {why}"), lines)
            self.assertTrue(lines[-2].endswith("| not read any more"), lines)
            self.assertTrue(lines[-1].endswith("; the drill stopped before the end"), lines)

    def test_nothing_at_all_is_run_too(self):
        self.assertEqual(ran(""), (["", "= 0 frames: 0 taken, 0 repeats, 0 refused; 0 postings"], "", 0))

    def test_a_drill_that_is_not_there_is_told(self):
        output, complaint, status = run(CASE_L, "--run", drill="no/such/drill")
        self.assertEqual((output, status), (b"", 1))
        self.assertIn("no/such/drill cannot be run", complaint)

    def test_a_program_that_is_not_the_drill_is_found_out(self):
        others = {
            "/bin/cat": "the drill printed",
            "/bin/true": "the drill printed '' of 'group 2'",
            "/bin/false": "/bin/false ended with status 1",
        }
        for program, why in others.items():
            output, complaint, status = run(CASE_L, "--run", drill=program)
            self.assertEqual((output, status), (b"", 1))
            self.assertIn(why, complaint)

    def test_a_drill_that_prints_something_else_is_found_out(self):
        end = "the drill printed another end than that of this run"
        wrong = {
            r"GROUP 2\nL1 A0\nEND 2\n": end,
            r"GROUP 2\nL1 A0\nL1 A0\nEND 1\n": end,
            r"GROUP 2\nL1 A0\n": end,
            r"GROUP 2\nL2 A0\nEND 1\n": "the drill printed 'L2 A0' of 'multicast 1 7 3'",
            r"GROUP 2\nSTOP 3\n": "the drill printed 'STOP 3' of 'multicast 1 7 3'",
            r"GROUP 3\nL1 A0\nEND 1\n": "the drill printed 'GROUP 3' of 'group 2'",
        }
        for printed, why in wrong.items():
            with tempfile.TemporaryDirectory() as folder:
                fake = os.path.join(folder, "drill")
                with open(fake, "w") as file:
                    file.write(f"#!/bin/sh\ncat > /dev/null\nprintf '{printed}'\n")
                os.chmod(fake, 0o755)
                self.assertEqual(run("group 2\nmulticast 1 7 3", "--run", drill=fake), (b"", f"records: {why}\n", 1))


if __name__ == "__main__":
    unittest.main()
