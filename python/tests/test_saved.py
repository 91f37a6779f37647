"""What to do with saved states after the power was lost, as rdsrt.h and STATION.md say."""
import pickle
import random
import unittest

from rdsrt import Audit, Encoder, Receiver

PI, DWELL, SLOTS, SEEDS = 0xC201, 16, 3000, range(20)
WORDS = "ABBA WATERLOO NEWS JAZZ WEATHER SONG NIGHT TRAIN SUN MOON RIVER HOUSE".split()


def text_of(roll):
    return " ".join(roll.sample(WORDS, roll.randint(2, 6)))[:64]


class Station:
    """An encoder whose power fails now and then, for up to three dwells. `keep` says when its state is saved: after each
    accepted text or name and before its group goes out ("set"), or behind that group ("sent"). None: it starts anew."""

    def __init__(self, roll, keep, has_tags=False):
        self.roll, self.keep, self.has_tags = roll, keep, has_tags
        self.encoder = Encoder(PI, dwell=DWELL)
        self.saved = pickle.dumps(self.encoder)

    def is_set(self):
        """Sets a text, a name or tags. Returns whether it did."""
        wait, chance = self.encoder.wait, self.roll.random()
        if chance < 0.2 and max(wait.silent, wait.text) == 0:
            self.encoder.set_text(text_of(self.roll))
        elif 0.2 <= chance < 0.25 and max(wait.silent, wait.name) == 0:
            self.encoder.set_name(self.roll.choice(WORDS)[:8])
        elif self.has_tags and chance > 0.9 and self.encoder.text:
            self.encoder.set_tags((1, 0, 3))
        else:
            return False
        return True

    def sent(self, slots):
        """Yields what is sent in each of so many slots."""
        off = 0
        for _ in range(slots):
            if off:
                off -= 1
                yield None
                if not off:
                    self.encoder = pickle.loads(self.saved) if self.keep else Encoder(PI, dwell=DWELL)
                continue
            is_set = self.is_set()
            if is_set and self.keep == "set":
                self.saved = pickle.dumps(self.encoder)
            yield self.encoder.tick(self.roll.random() < 0.7)
            fails = self.roll.random() < (0.5 if is_set else 0.01)
            if is_set and not fails and self.keep == "sent":
                self.saved = pickle.dumps(self.encoder)
            off = self.roll.randint(1, 3 * DWELL) if fails else 0


def failed(keep, has_tags=False):
    """Returns how many of the stations the audit refuses."""
    return sum(Audit(PI, DWELL).take(Station(random.Random(seed), keep, has_tags).sent(SLOTS)) is not None
               for seed in SEEDS)


class Saved(unittest.TestCase):
    def test_a_receiver_ends_the_slots_of_the_pause(self):
        """It then stands where one stands that lost these slots; after a dwell or more, where a new one stands."""
        for seed in SEEDS:
            roll = random.Random(seed)
            groups = [*Station(roll, "set").sent(400)]
            on, off = Receiver(PI, DWELL), Receiver(PI, DWELL)
            for group in groups[:200]:
                on.slot(group)
                off.slot(group)
            saved, pause = pickle.dumps(off), roll.randint(1, 2 * DWELL)
            off = pickle.loads(saved)
            for _ in range(pause):
                on.slot(None)
                off.slot(None)
            self.assertEqual((on.view, on.segments), (off.view, off.segments))
            unknown = pickle.loads(saved)
            for _ in range(DWELL):
                unknown.slot(None)
            new = Receiver(PI, DWELL)
            self.assertEqual((unknown.view, unknown.segments), (new.view, new.segments))
            for group in groups[200 + pause:]:
                for receiver in (on, off, unknown, new):
                    receiver.slot(group)
                self.assertEqual(on.view, off.view)
                self.assertEqual(unknown.view, new.view)

    def test_a_receiver_that_leaves_out_the_pause_can_show_a_mix(self):
        first, second = Encoder(PI, dwell=1), Encoder(PI, dwell=1)
        for encoder, text in ((first, "NEWS AT TEN"), (second, "ROCK SONG")):
            encoder.tick()
            encoder.set_text(text)
        receiver = Receiver(PI, DWELL)
        for _ in range(8):
            receiver.slot(first.tick())
        receiver = pickle.loads(pickle.dumps(receiver))
        receiver.slot(second.tick())
        self.assertEqual(receiver.view.text, "ROCK AT TEN")

    def test_an_encoder_that_starts_anew_passes(self):
        self.assertEqual((failed(None), failed(None, has_tags=True)), (0, 0))

    def test_an_encoder_that_stores_each_text_and_name_before_it_sends_them_passes(self):
        self.assertEqual(failed("set"), 0)

    def test_other_encoders_fail(self):
        """One that sends first, and one that stores tags: after a pause of a dwell they come too early."""
        self.assertGreater(failed("sent"), len(SEEDS) / 2)
        self.assertGreater(failed("set", has_tags=True), len(SEEDS) / 2)
