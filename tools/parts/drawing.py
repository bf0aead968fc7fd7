"""The picture of a run: a column for the desk and for each ledger, time running down, a frame an arrow."""

import math

from parts import replay
from parts.canvas import BOLD_CHARACTER, LINE_HEIGHT, Canvas, broken, wide
from parts.text import members

WIDTH = 900
DESK = 62
FIRST_LEDGER = 224
ABOVE_ARROW = 20
BELOW_WORDS = 12
# Each row has one frame, so its words may reach over the next columns.
LEAST_ROOM = 150
PLAIN = "#235"
REFUSED = "#b02"
# A payment's arrows share a colour. Nothing is told by it alone: the words name the payment, dashes and marks the answer.
PAYMENTS = ["#1a4f8a", "#7a3d00", "#0b6b57", "#6a2c91", "#5c5c00", "#2b2b2b"]


class Picture:
    def __init__(self, events, title):
        self.canvas = Canvas(WIDTH)
        self.events = events
        self.title = title
        self.groups = [event.values[0] for event in events if event.outcome.what == "group"]
        self.count = max(self.groups, default=1)
        self.column = (WIDTH - FIRST_LEDGER) / self.count
        self.y_of = {}
        self.number = 0
        self.colours = {}

    def colour(self, event):
        if event.manner == "refused":
            return REFUSED
        return self.colours.setdefault(event.values[1], PAYMENTS[len(self.colours) % len(PAYMENTS)])

    def x_of(self, ledger):
        return FIRST_LEDGER + (ledger - 1) * self.column

    def room(self):
        """The width that words have beside a ledger's line."""
        return max(self.column - 22, LEAST_ROOM)

    def heads(self, y):
        self.head(DESK, y, "the desk", "#fde9c8", "#a70")
        for ledger in range(1, self.count + 1):
            self.head(self.x_of(ledger), y, f"ledger {ledger}", "#d9ecfb", "#257")

    def head(self, x, y, words, fill, stroke):
        self.canvas.box(x - 38, y, 76, 26, rx=5, fill=fill, stroke=stroke)
        self.canvas.text(words, x, y + 18, "bold", "middle")

    def lives(self, top, bottom):
        for x in [DESK, *(self.x_of(ledger) for ledger in range(1, self.count + 1))]:
            self.canvas.line("lines", "life", x, top, x, bottom)

    def across(self, y, words):
        """A line over all columns, with words on it."""
        self.canvas.line("words", "frame", 12, y, WIDTH - 12, y, stroke=PLAIN)
        self.canvas.box(DESK + 46, y - 10, wide(words, BOLD_CHARACTER) + 12, 20, fill="#fff", stroke=PLAIN)
        self.canvas.text(words, DESK + 52, y + 4, "bold")
        return y + 16

    def step(self, event, top):
        """A frame and what came of it. What leaves a ledger goes down, so the words of a payment taken stand above it."""
        says = self.says(event)
        high = sum(height for _, height in says)
        leaves = event.word == "multicast" and event.manner == "taken"
        y = top + (max(ABOVE_ARROW, high + 6) if leaves else ABOVE_ARROW)
        self.y_of[event.row] = y
        self.number += 1
        self.canvas.text(str(self.number), 6, y + 4, "faint")
        x = self.x_of(event.values[0])
        start = self.multicast(event, y) if event.word == "multicast" else self.propose(event, x, y)
        self.arrow(event.manner, self.colour(event), *start, x, y)
        beside = min(x + 9.0, WIDTH - LEAST_ROOM - 4.0)
        # Words that had to be moved over the line keep clear of the mark on it.
        clear = 6 if beside < x else 0
        at = y - high - clear if leaves else y + 4 + clear
        for draw, height in says:
            draw(beside, at)
            at += height
        return max(at, y + LINE_HEIGHT) + BELOW_WORDS

    def multicast(self, event, y):
        _, payment, destinations = event.values
        named = ", ".join(map(str, members(destinations))) or "none"
        self.canvas.text(f"payment {payment}", DESK + 8, y - 5, "bold")
        self.canvas.text(f"for {named}", DESK + 8, y + 14)
        return DESK, y

    def propose(self, event, x, y):
        """Where the arrow of a proposal starts: at the sending, or beside the ledger's line if none is known."""
        if event.sent:
            return self.x_of(event.values[3]), self.y_of[event.sent.row]
        known = event.values[3] != event.values[0] and 1 <= event.values[3] <= self.count
        start = self.x_of(event.values[3]) if known else x - 40
        self.canvas.shape(f"M{start - 6:.0f} {y} l6 -6 l6 6 l-6 6 z", fill="#fff", stroke=self.colour(event), stroke_width=1.6)
        return start, y

    def arrow(self, manner, colour, x1, y1, x2, y2):
        length = math.hypot(x2 - x1, y2 - y1) or 1
        across, down = (x2 - x1) / length, (y2 - y1) / length
        tip_x, tip_y = x2 - 6 * across, y2 - 6 * down
        self.canvas.line("arrows", f"frame {manner}", float(x1), float(y1), float(tip_x), float(tip_y), stroke=colour)
        left = (tip_x - 9 * across + 4 * down, tip_y - 9 * down - 4 * across)
        right = (tip_x - 9 * across - 4 * down, tip_y - 9 * down + 4 * across)
        points = " ".join(f"{a:.1f},{b:.1f}" for a, b in [(tip_x, tip_y), left, right])
        self.canvas.add("arrows", "polygon", points=points, fill=colour)
        self.mark(manner, colour, x2, y2)

    def mark(self, manner, colour, x, y):
        """Taken: a full dot. A repeat: a ring. A refusal: a cross."""
        if manner == "refused":
            self.canvas.shape(f"M{x - 5:.0f} {y - 5:.0f} l10 10 m0 -10 l-10 10", stroke=colour, stroke_width=2.6, fill="none")
        else:
            fill = colour if manner == "taken" else "#fff"
            self.canvas.add("marks", "circle", cx=float(x), cy=float(y), r=5, fill=fill, stroke=colour, stroke_width=2)

    def says(self, event):
        """What stands beside an arrow's tip: for each part how to draw it at a place, and its height."""
        parts = [self.paragraph(told(event), "bold" if event.manner == "refused" else "plain")]
        if event.word == "propose" and not event.sent:
            parts.append(self.paragraph("(its sending is not in this run)", "faint"))
        if event.stamp:
            time, ledger = event.stamp
            parts.append(self.stamped(f"stamp of {event.values[1]}: ({time}, {ledger})"))
        if event.outcome.posts:
            parts.append(self.postings(event.outcome.posts))
        return parts

    def paragraph(self, words, kind, indent=0, room=None):
        lines = broken(words, (room or self.room()) - indent)

        def draw(x, y):
            for number, line in enumerate(lines):
                at = y + number * LINE_HEIGHT
                self.canvas.box(x, at, wide(line), LINE_HEIGHT, class_="paper")
                self.canvas.text(line, x, at + 12, kind)
        return draw, len(lines) * LINE_HEIGHT

    def stamped(self, words):
        draw_words, height = self.paragraph(words, "plain", indent=12)

        def draw(x, y):
            draw_words(x + 12, y)
            self.canvas.shape(f"M{x:.0f} {y + 8:.0f} l4 -5 l4 5 l-4 5 z", fill="#647")
        return draw, height

    def postings(self, payments):
        lines = broken(f"posts {', '.join(map(str, payments))}", self.room() - 10)
        width = max(wide(line, BOLD_CHARACTER) for line in lines) + 12
        height = len(lines) * LINE_HEIGHT + 5

        def draw(x, y):
            self.canvas.box(x, y + 2, width, height, rx=3, fill="#163", stroke="#031")
            for number, line in enumerate(lines):
                self.canvas.text(line, x + 6, y + 15 + number * LINE_HEIGHT, "post")
        return draw, height + 6

    def ends(self, ledgers, y):
        """Below each ledger: what it posted, in its order, and what it has not posted."""
        self.canvas.text("at the end", DESK, y + 12, "bold", "middle")
        bottom = y
        for number, ledger in ledgers.items():
            room = self.column - 8
            says = [self.paragraph(f"posted {listed(ledger.posted)}", "bold", room=room)]
            if ledger.not_posted():
                says.append(self.paragraph(f"not posted: {listed(ledger.not_posted())}", "plain", room=room))
            at = y
            for draw, height in says:
                draw(self.x_of(number) - 30.0, at)
                at += height
            bottom = max(bottom, at)
        return bottom + BELOW_WORDS

    def legend(self, y):
        """What the marks mean."""
        x = 24
        for manner, words in [("taken", "taken"), ("repeat", "a repeat: nothing changes"), ("refused", "refused: nothing changes")]:
            self.arrow(manner, REFUSED if manner == "refused" else PLAIN, x, y + 10, x + 60, y + 10)
            self.canvas.text(words, x + 72, y + 14)
            x += 84 + wide(words) + 10
        self.canvas.shape(f"M{x:.0f} {y + 10} l4 -5 l4 5 l-4 5 z", fill="#647")
        self.canvas.text("stamp: (time, ledger)", x + 14, y + 14)
        return y + 30


def listed(payments):
    return ", ".join(map(str, payments)) or "nothing"


def told(event):
    """What the ledger did with a frame, in words."""
    payment = event.values[1]
    if event.manner == "repeat":
        again = "" if event.word == "multicast" else f" from {event.values[3]}"
        return f"a repeat of {payment}{again}: nothing changes"
    if event.manner == "refused":
        return f"refused ({event.outcome.answer}): {replay.ANSWERS.get(event.outcome.answer, '')}"
    if event.word == "multicast":
        alone = len(members(event.values[2])) == 1
        return f"{'own' if alone else 'proposes'} time {event.own_time} for {payment}"
    return f"ledger {event.values[3]}: time {event.values[4]} for {payment}"


def drawn(events, ledgers, title):
    """The SVG of a run."""
    picture = Picture(events, title)
    y = 8
    for line in broken(title, WIDTH - 40):
        picture.canvas.text(line, 12, y + 14, "head")
        y += 20
    y += 6
    picture.heads(y)
    top = y = y + 34
    for event in events:
        if event.outcome.what == "step":
            y = picture.step(event, y)
        elif event.outcome.what == "stop":
            y = picture.across(y + 14, f"the drill stops here: {event.outcome.why}")
        elif event.row:
            y = picture.across(y + 14, f"{replay.in_words(event.outcome)}")
    picture.lives(top, y + 4)
    y = picture.ends(ledgers, y + 8)
    y = picture.legend(y + 4)
    return picture.canvas.svg(y, title)
