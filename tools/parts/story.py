"""What a run tells beyond its answers: who sent a proposal and when, which stamp a payment got, what was left open.

The drill prints answers and postings. Own times and stamps are worked out here from the frames that it took: a taken
MULTICAST raises the clock by one, and once every destination is heard the greatest proposal is the stamp."""

from dataclasses import dataclass, field

from parts import replay
from parts.text import members


@dataclass
class Event:
    """One line of the run. `sent` is the event at which the source took its MULTICAST, None if no event here sent this."""
    outcome: replay.Outcome
    sent: "Event" = None
    own_time: int = 0
    stamp: tuple = None
    row: int = 0

    @property
    def word(self):
        return self.outcome.line.words[0]

    @property
    def values(self):
        return self.outcome.line.values

    @property
    def manner(self):
        """How the ledger met the frame: "taken", "repeat" or "refused"."""
        return {replay.TAKEN: "taken", replay.REPEAT: "repeat"}.get(self.outcome.answer, "refused")


@dataclass
class Ledger:
    clock: int = 0
    # For each payment, the time heard from each ledger.
    heard: dict = field(default_factory=dict)
    stamps: dict = field(default_factory=dict)
    posted: list = field(default_factory=list)
    # For each payment, the event at which its MULTICAST was taken.
    taken: dict = field(default_factory=dict)

    def take(self, event):
        own, payment, destinations = event.values[:3]
        heard = self.heard.setdefault(payment, {})
        if event.word == "multicast":
            self.clock += 1
            event.own_time = heard[own] = self.clock
            self.taken[payment] = event
        else:
            source, time = event.values[3:]
            heard[source] = time
        if set(heard) == set(members(destinations)):
            event.stamp = self.stamps[payment] = max((time, ledger) for ledger, time in heard.items())
            self.clock = max(self.clock, event.stamp[0])
        self.posted += event.outcome.posts

    def not_posted(self):
        return [payment for payment in self.heard if payment not in self.posted]


def sender(event, ledgers):
    """The event that sent a proposal, if the ledger that it names did send it in this run."""
    _, payment, destinations, source, time = event.values
    sent = ledgers[source].taken.get(payment) if source in ledgers else None
    if sent and sent.own_time == time and sent.values[2] == destinations:
        return sent
    return None


def events(outcomes):
    """The events of a run, and the ledgers as the last group left them."""
    found, ledgers = [], {}
    for outcome in outcomes:
        if outcome.what in ("none", "unread"):
            continue
        event = Event(outcome, row=len(found))
        found.append(event)
        if outcome.what == "group":
            ledgers = {number: Ledger() for number in range(1, event.values[0] + 1)}
        elif outcome.what == "step":
            if event.word == "propose":
                event.sent = sender(event, ledgers)
            if event.manner == "taken":
                ledgers[event.values[0]].take(event)
    return found, ledgers
