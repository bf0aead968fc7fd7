"""Running the drill on the lines of a text, and what it answered, in words."""

import os
import re
import subprocess
import sys
from collections import namedtuple

from parts.text import counted

TOOLS = os.path.dirname(os.path.dirname(os.path.abspath(__file__)))
ROOT = os.path.dirname(TOOLS)

# The built drill, where the prover leaves it.
BUILT = "crates/drill/out/drill"

# The answers that a desk may meet, in a few words each. README.md says what to do about each.
ANSWERS = {
    0: "taken",
    1: "the state is not sound",
    2: "a buffer is too short",
    3: "not a frame",
    4: "payment number 0",
    5: "wrong destinations",
    6: "wrong source",
    7: "wrong time",
    8: "contradicts what is held",
    9: "a repeat, nothing changed",
    10: "the ledger is full",
    11: "the clock is spent",
}
TAKEN, REPEAT = 0, 9

# What came of a line: "group", "step", "stop" or "unread" (after a stop), or "none" for a line without a record.
Outcome = namedtuple("Outcome", "line what answer posts why", defaults=(None, (), ""))


class NoDrill(Exception):
    """The drill could not be built or run; says why."""


def drill_path():
    """The program that DRILL names, taken from the root of the repository, or the built drill."""
    return os.path.join(ROOT, os.environ.get("DRILL", BUILT))


def build():
    """Builds the drill; what is said of it goes to standard error, since the output is the caller's."""
    print(f"{BUILT} is missing; it is proved and built first, which may take some minutes.", file=sys.stderr)
    sys.stderr.flush()
    if subprocess.run(["make", "-s", "-C", ROOT, BUILT], stdout=sys.stderr).returncode:
        raise NoDrill("the drill could not be built")


def printed(data):
    """The lines that the drill prints of these records."""
    path = drill_path()
    if not os.path.exists(path) and "DRILL" not in os.environ:
        build()
    try:
        done = subprocess.run([path], input=data, capture_output=True)
    except OSError as problem:
        raise NoDrill(f"{path} cannot be run: {problem.strerror}") from None
    if done.returncode or done.stderr:
        raise NoDrill(f"{path} ended with status {done.returncode}: {done.stderr.decode('utf-8', 'replace').strip()}")
    return done.stdout.decode("ascii", "replace").splitlines()


def outcome(line, said, offset, group):
    """What came of a record, by the line that the drill printed of it."""
    if said == f"STOP {offset}":
        return Outcome(line, "stop", why=why_stopped(line, group))
    if line.words[0] == "group" and said == f"GROUP {line.values[0]}":
        return Outcome(line, "group")
    found = re.fullmatch(r"L(\d+) A(\d+)((?: P\d+)*)", said)
    if line.words[0] == "group" or not found or int(found[1]) != line.values[0]:
        raise NoDrill(f"the drill printed '{said}' of '{' '.join(line.words)}'")
    posts = tuple(int(word[1:]) for word in found[3].split())
    return Outcome(line, "step", int(found[2]), posts)


def why_stopped(line, group):
    """Why the drill read no further: a text gives whole records of known kinds, so three reasons are left."""
    if line.words[0] == "group":
        return "a group has 1 to 8 ledgers"
    if group == 0:
        return "no group is set up yet"
    return f"the group has ledgers 1 to {group}, there is no ledger {line.values[0]}"


def outcomes(lines):
    """What came of each line, taken from what the drill printed."""
    said = iter(printed(b"".join(line.record for line in lines)))
    found, offset, group, steps, stopped = [], 0, 0, 0, False
    for line in lines:
        if not line.record or stopped:
            found.append(Outcome(line, "unread" if line.record else "none"))
            continue
        one = outcome(line, next(said, ""), offset, group)
        found.append(one)
        group = line.values[0] if one.what == "group" else group
        steps += one.what == "step"
        stopped = one.what == "stop"
        offset += len(line.record)
    if list(said) != ([] if stopped else [f"END {steps}"]):
        raise NoDrill("the drill printed another end than that of this run")
    return found


def in_words(outcome):
    line = outcome.line
    if outcome.what == "group":
        return f"a fresh group of {counted(line.values[0], 'ledger')}"
    if outcome.what == "stop":
        return f"the drill stops here: {outcome.why}"
    if outcome.what == "unread":
        return "not read any more"
    words = ANSWERS.get(outcome.answer, "an answer that is not known here")
    if outcome.answer not in (TAKEN, REPEAT):
        words = f"refused, answer {outcome.answer}: {words}"
    posts = f"; posts {', '.join(map(str, outcome.posts))}" if outcome.posts else ""
    return f"ledger {line.values[0]}: {words}{posts}"


def beside(found):
    """Each line of the text beside what came of it, and a last line that says how far the run went."""
    left = max([len(" ".join(one.line.words)) for one in found], default=0)
    told = []
    for one in found:
        if one.what == "none":
            told.append(one.line.comment)
        else:
            row = f"{' '.join(one.line.words):<{left}} | {in_words(one)}"
            told.append(f"{row:<{left + 39}} {one.line.comment}".rstrip())
    return told + [summary(found)]


def summary(found):
    steps = [one for one in found if one.what == "step"]
    repeats = sum(one.answer == REPEAT for one in steps)
    refused = sum(one.answer not in (TAKEN, REPEAT) for one in steps)
    posted = sum(len(one.posts) for one in steps)
    count = (f"{counted(len(steps), 'frame')}: {len(steps) - repeats - refused} taken, {counted(repeats, 'repeat')}, "
             f"{refused} refused; {counted(posted, 'posting')}")
    stopped = any(one.what == "stop" for one in found)
    return f"= {count}" + ("; the drill stopped before the end" if stopped else "")
