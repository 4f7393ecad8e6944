"""The host of a guest's disk: what it does stands among the guest's events.

The suite's small model says which operations there are. When the host does one, which one of those in flight, how much of it, and
whether it fails come of dice: what it reads into memory are `mw` lines, and a completion is an `io` line.
"""
import random

from guests import Event
import model

# Before how many of the guest's events an operation is completed. Mostly it is before the next notify: a driver that never waits fills its ring.
DELAYS = [0, 1, 2, 3, 5, 20, 60]
NOTIFY = 0x050
# Before how many of the guest's events a slot that a late host holds is released.
HOLDS = [0, 1, 2, 5, 20]
# How often the host holds the slot over a notify, where it isn't late; and holds it, and drops what is in flight, where it is.
BRIEFLY, HOLDING, DROPPING = 0.1, 0.03, 0.03


class Host:
    """Serves one guest's disk: at once, in the order of asking and always well, or late, in any order and not always well."""

    def __init__(self, guest, disk, dice, is_late):
        self.board = model.board_of([guest.slot.fields(guest.disk_field())], 1, model.Image(b"", ()), (), largest=2**32)
        self.guest, self.disk, self.dice, self.is_late, self.due = guest, bytearray(disk), dice, is_late, 0
        # How often it does all that is in flight before a notify.
        self.patience = 0.7 if guest.depth == 1 or not is_late else 0.3
        self.events, self.told, self.asked = [], [], []
        # What it says besides has dice of its own, and so the rest stays as it is.
        self.said, self.until = random.Random(f"said {guest.slot}"), 0

    def flights(self):
        """The tags with something in flight, in the order of asking."""
        tags = self.board[0].tags
        self.asked = [one for one in self.asked if any(one is asked for asked in tags)]
        self.asked += [asked for asked in tags if asked and not any(asked is one for one in self.asked)]
        return [next(tag for tag, asked in enumerate(tags) if asked is one) for one in self.asked]

    def serve(self):
        """The guest's events with the host's among them, and the model's records of them. A guest whose host is late relies on
        nothing of its disk and its console."""
        expected = {}
        for number, event in enumerate(self.guest.events):
            if self.guest.is_apart(event):
                self.pass_on(event, self.guest.expected.get(number), expected)
                continue
            is_notify = event.writes("b", NOTIFY)
            if is_notify and self.dice.random() < self.patience:
                self.complete_all()
            is_brief = is_notify and not self.is_late and self.said.random() < BRIEFLY
            if is_brief:
                self.do("hold")
            if number in self.guest.expected and not self.is_late:
                expected[len(self.events)] = self.guest.expected[number]
            if self.do(*event).startswith("busy ") and self.dice.random() < 0.9:
                self.complete_all()
                self.do(*event)
            if is_brief:
                self.do("release")
            while self.flights() and self.due == 0:
                self.complete()
                if self.is_late and self.dice.random() < 0.3:
                    self.due = self.dice.choice(DELAYS)
            self.due = max(0, self.due - 1)
            if self.is_late and self.dice.random() < 0.01:
                self.do("io", f"{self.dice.randrange(self.guest.depth + 2):x} {self.dice.choice(['done', 'failed'])}")
            if self.is_late:
                self.say()
        self.guest.events, self.guest.told, self.guest.expected = self.events, self.told, expected

    def pass_on(self, event, reply, expected):
        """Writes an event down of which the model knows nothing, since it concerns no disk."""
        if reply is not None:
            expected[len(self.events)] = reply
        self.events.append(event)
        self.told.append(None)

    def say(self):
        """Now and then holds the slot, later releases it, or drops what is in flight."""
        self.until = max(0, self.until - 1)
        if self.board[0].held and self.until == 0 or self.said.random() < HOLDING / 4:
            self.do("release")
        elif self.said.random() < HOLDING:
            self.do("hold")
            self.until = self.said.choice(HOLDS)
        if self.said.random() < (DROPPING if self.flights() else DROPPING / 8):
            self.do("drop")

    def do(self, word, fields=""):
        """Writes an event down; its record."""
        event = Event(word, fields)
        record = model.hosted_record_of(self.board, word, event.line().words[1:]).partition(" ")[2]
        self.events.append(event)
        self.told.append(record)
        if not record.endswith(" -"):
            self.due = self.dice.choice(DELAYS) if self.is_late else 0
        return record

    def complete_all(self):
        while self.flights():
            self.complete()

    def complete(self):
        """Does an operation in flight and says so, or a part of it and that it failed."""
        tags = self.flights()
        tag = self.dice.choice(tags) if self.is_late else tags[0]
        asked, fails = self.board[0].tags[tag], self.is_late and self.dice.random() < 0.25
        runs = asked.runs[:self.dice.randrange(len(asked.runs) + 1)] if fails else asked.runs
        self.WAYS[asked.kind.partition("-")[0]](self, asked.start, runs)
        self.do("io", f"{tag:x} {'failed' if fails else 'done'}")

    # --- what is done, by its kind

    def flush(self, start, runs):
        pass

    def zeroes(self, start, runs):
        for at, count in runs:
            self.disk[at:at + count] = bytes(count)

    def out(self, start, runs):
        for at, count in runs:
            self.disk[start:start + count] = self.board[0].memory.part(at, count)
            start += count

    def read(self, start, runs):
        for at, count in runs:
            self.do("mw", f"{at:x} {self.disk[start:start + count].hex()}")
            start += count

    WAYS = {"in": read, "out": out, "flush": flush, "zeroes": zeroes}


def complete_nothing(guest, dice):
    """A host completes now and then what a guest on the image never has in flight, or drops, holds or releases it."""
    events, expected, said = [], {}, random.Random(f"said {guest.slot}")
    for number, event in enumerate(guest.events):
        if dice.random() < 0.02:
            expected[len(events)] = "idle -"
            events.append(Event("io", f"{dice.choice([0, 0, 1, 63, 255]):x} {dice.choice(['done', 'failed'])}"))
        if said.random() < 0.02:
            expected[len(events)] = "idle -"
            events.append(Event(said.choice(["drop", "hold", "hold", "release"]), ""))
        if number in guest.expected:
            expected[len(events)] = guest.expected[number]
        events.append(event)
    guest.events, guest.expected = events, expected
