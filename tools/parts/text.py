"""The text form of the drill's records: text to bytes, and bytes back to text."""

import re
from collections import namedtuple

# For each word: the kind byte, then the fields with their lengths in bytes.
FORMS = {
    "group": (16, [("number of ledgers", 1)]),
    "multicast": (17, [("target", 1), ("payment", 4), ("destinations", 1)]),
    "propose": (18, [("target", 1), ("payment", 4), ("destinations", 1), ("source", 1), ("time", 2)]),
}
WORD_OF = {kind: word for word, (kind, _) in FORMS.items()}

# A line of a text. `record` is empty for a line that has only a comment, or nothing.
Line = namedtuple("Line", "words comment record values")


class BadLine(Exception):
    """A text or a file of records that cannot be turned; says where, why and what was expected."""


def usage(word):
    """How a line that begins with this word goes on."""
    return " ".join([word, *(name.upper().replace(" ", "-") for name, _ in FORMS[word][1])])


def value(name, length, text):
    most = 256 ** length - 1
    expected = f"expected a number from 0 to {most}, decimal or 0x hex"
    if not re.fullmatch(r"[0-9]+|0[xX][0-9a-fA-F]+", text):
        raise BadLine(f"the {name} '{text}' is not a number: {expected}")
    base = 16 if text[:2] in ("0x", "0X") else 10
    digits = (text[2:] if base == 16 else text).lstrip("0") or "0"
    # Longer than any field holds: not worth turning into a number.
    if len(digits) > 10 or int(digits, base) > most:
        raise BadLine(f"the {name} {text[:20]} does not fit: {expected}")
    return int(digits, base)


def values(words):
    """The values that the words of one line give to the fields."""
    if words[0] not in FORMS:
        raise BadLine(f"'{words[0]}' is not a record: expected one of {', '.join(FORMS)}")
    fields = FORMS[words[0]][1]
    if len(words) - 1 != len(fields):
        many = "1 value" if len(words) == 2 else f"{len(words) - 1} values"
        raise BadLine(f"{words[0]} has {many}: expected '{usage(words[0])}'")
    return [value(name, length, text) for (name, length), text in zip(fields, words[1:])]


def record(word, numbers):
    """The bytes of one record, high byte first."""
    kind, fields = FORMS[word]
    return bytes([kind]) + b"".join(number.to_bytes(length, "big") for number, (_, length) in zip(numbers, fields))


def line(text):
    before, mark, after = text.rstrip("\r").partition("#")
    words = before.split()
    numbers = values(words) if words else []
    return Line(words, (mark + after).strip(), record(words[0], numbers) if words else b"", numbers)


def lines(name, text):
    """The lines of a text; a bad one is told by the text's name and its number."""
    found = []
    for number, one in enumerate(text.removesuffix("\n").split("\n"), start=1):
        try:
            found.append(line(one))
        except BadLine as problem:
            raise BadLine(f"{name}:{number}: {problem}") from None
    return found


def counted(count, noun):
    return f"{count} {noun}" if count == 1 else f"{count} {noun}s"


def members(destinations):
    """The ledgers that a byte of destinations names."""
    return [ledger for ledger in range(1, 9) if destinations >> (ledger - 1) & 1]


def ledgers(destinations):
    named = members(destinations)
    if not named:
        return "no ledger"
    return ("ledger " if len(named) == 1 else "ledgers ") + ", ".join(map(str, named))


def meaning(word, numbers):
    """What a record says, in words."""
    if word == "group":
        return f"{counted(numbers[0], 'ledger')}, all fresh"
    target, payment, destinations = numbers[:3]
    if word == "multicast":
        return f"payment {payment}, for {ledgers(destinations)}, reaches ledger {target}"
    source, time = numbers[3:]
    return f"ledger {source} proposes time {time} for payment {payment}, for {ledgers(destinations)}; it reaches ledger {target}"


def read_back(name, data):
    """The text of some records, a line each; then what is wrong with the rest, if anything is."""
    found, offset = [], 0
    while offset < len(data):
        word = WORD_OF.get(data[offset])
        if word is None:
            kinds = ", ".join(f"{kind} ({known})" for kind, known in WORD_OF.items())
            return found, f"{name}: byte {offset}: no record has kind {data[offset]}: expected one of {kinds}"
        fields = FORMS[word][1]
        total = 1 + sum(length for _, length in fields)
        if offset + total > len(data):
            return found, f"{name}: byte {offset}: cut short: expected {total} bytes for a {word}, found {len(data) - offset}"
        numbers, at = [], offset + 1
        for _, length in fields:
            numbers.append(int.from_bytes(data[at:at + length], "big"))
            at += length
        plain = " ".join([word, *map(str, numbers)])
        found.append(f"{plain:<28}# {meaning(word, numbers)}")
        offset = at
    return found, None
