"""Receivers with a window in random worlds with wrong groups, beside a diary of all that was on air.

The premise: of two receipts of one segment, or of one pair of tags, less than W slots apart, at least one is right. The
station spaces its texts by d = M + W - 1 slots. Then each text and name shown was on air within the last d slots, each tag
shown was sent for the text shown, and two receivers show the same text or two neighbouring ones.
"""
import collections
import random
import unittest

from rdsrt import Encoder, Receiver, Refused

PI, SEED, WORLDS, SLOTS, DWELL, WINDOW = 0xC201, 20261127, 2000, 120, 5, 6
SPACING = DWELL + WINDOW - 1
TEXTS = ("FIRST SONG", "THIRD SONG", "HI", "YO")
NAMES = ("JAZZ FM", "NEWS NOW")
TAGS = ((1, 0, 2), (4, 0, 1), (9, 1, 1))


def segments(text):
    """Returns the segments of a text, each with its address."""
    body = text.encode() + b"\r"
    body += b" " * (-len(body) % 4)
    return [(at // 4, body[at:at + 4]) for at in range(0, len(body), 4)]


def wrong_group(rng):
    """Returns a group that the station may not have sent, and what of it may not come twice."""
    flag = rng.randrange(2)
    if rng.random() < 0.6:
        address, body = rng.choice(segments(rng.choice(TEXTS)))
        group = (PI, 2 << 12 | flag << 4 | address, int.from_bytes(body[:2], "big"), int.from_bytes(body[2:], "big"))
        return group, group[1:]
    if rng.random() < 0.5:
        body = rng.choice(NAMES).ljust(8).encode()[4 * flag:][:4]
        group = (PI, 10 << 12 | rng.randrange(2) << 4 | flag, int.from_bytes(body[:2], "big"),
                 int.from_bytes(body[2:], "big"))
        return group, group[1:]
    kind, start, length = rng.choice(TAGS)
    group = (PI, 11 << 12 | flag << 4 | kind >> 3, (kind & 7) << 13 | start << 7 | (length - 1) << 1, 0)
    return group, group[1:]


class Station:
    """A station with random texts, names and tags, and the diary of what was on air in each slot."""

    def __init__(self, rng, spacing):
        self.rng, self.spacing, self.encoder = rng, spacing, Encoder(PI, dwell=spacing)
        self.slots, self.tags, self.counts = [], collections.defaultdict(set), collections.Counter()
        self.now = {}

    def slot(self):
        """Returns the group of the next slot."""
        kind = self.rng.random()
        try:
            if kind < 0.3:
                self.set("text", self.rng.choice(TEXTS), self.encoder.set_text)
            elif kind < 0.4:
                self.set("name", self.rng.choice(NAMES), self.encoder.set_name)
            elif kind < 0.6:
                tags = self.rng.sample(TAGS, 2)
                self.encoder.set_tags(*tags, running=True)
                number, text = self.now["text"]
                self.tags[number] |= {(kind, text[start:start + length]) for kind, start, length in tags}
        except (Refused, ValueError):
            pass
        self.slots.append(dict(self.now))
        return self.encoder.tick(self.rng.random() < 0.9)

    def set(self, service, value, call):
        call(value)
        self.counts[service] += 1
        self.now[service] = self.counts[service], value

    def numbers(self, service, value):
        """Returns the broadcasts with this value that were on air in the last d slots."""
        lately = [it[service] for it in self.slots[-self.spacing:] if service in it]
        return {number for number, sent in lately if sent == value}


class Reception:
    """A receiver that loses groups and gets wrong ones. With `keeps` the premise holds."""

    def __init__(self, rng, receiver, keeps):
        self.rng, self.receiver, self.keeps, self.wrong, self.slot = rng, receiver, keeps, {}, 0

    def take(self, sent):
        self.slot += 1
        kind = self.rng.random()
        if kind < 0.2:
            sent, what = wrong_group(self.rng)
            if self.keeps and self.slot - self.wrong.get(what, -WINDOW) < WINDOW:
                sent = None
            elif sent:
                self.wrong[what] = self.slot
        elif kind < 0.35:
            sent = None
        self.receiver.slot(sent)


def breaches(station, views):
    """Returns which promises the views of this slot break."""
    found, shown = [], []
    for view in views:
        if view.text is not None:
            shown.append(station.numbers("text", view.text))
            found += ["text"] * (not shown[-1])
            pieces = set().union(*(station.tags[number] for number in shown[-1]))
            found += ["tag" for tag in view.tags if (int(tag.content_type), tag.text) not in pieces]
        if view.name is not None:
            found += ["name"] * (not station.numbers("name", view.name.rstrip()))
    if len(shown) == 2 and all(shown):
        found += ["neighbours"] * all(abs(one - other) > 1 for one in shown[0] for other in shown[1])
    return found


def played(number, window, keeps, spacing=SPACING):
    """Returns the breaches of a world, and how often its receivers show a text."""
    rng = random.Random(f"{SEED} {number}")
    station = Station(rng, spacing)
    radios = [Reception(rng, Receiver(PI, DWELL, window=window), keeps) for _ in range(2)]
    found, texts = collections.Counter(), 0
    for _ in range(SLOTS):
        sent = station.slot()
        for radio in radios:
            radio.take(sent)
        views = [radio.receiver.view for radio in radios]
        found.update(breaches(station, views))
        texts += sum(view.text is not None for view in views)
    return found, texts


class Corrected(unittest.TestCase):
    def test_no_promise_breaks_where_the_premise_holds(self):
        texts = 0
        for number in range(WORLDS):
            found, count = played(number, WINDOW, True)
            self.assertEqual(found, {}, f"seed {SEED}, world {number}")
            texts += count
        self.assertGreater(texts, 100 * WORLDS / 10)

    def test_promises_break_where_it_fails(self):
        for name, window, keeps in (("wrong in the same way twice", WINDOW, False), ("heard once", None, True),
                                    ("a window of two more slots", WINDOW + 2, False)):
            found = sum((played(number, window, keeps)[0] for number in range(WORLDS // 20)), collections.Counter())
            self.assertGreater(found["text"], 0, name)
            self.assertGreater(found["name"] + found["tag"] + found["neighbours"], 0, name)

    def test_a_slot_less_between_texts_is_too_little(self):
        found = sum((played(number, WINDOW, True, SPACING - 1)[0] for number in range(600)), collections.Counter())
        self.assertGreater(found["text"], 0)


if __name__ == "__main__":
    unittest.main()
