"""Tests of receivers, encoders, audits, their exceptions, copies and threads."""
import copy
import ctypes
import inspect
import os
import pickle
import random
import re
import sys
import threading
import unittest
import weakref

import by_chance
import rdsrt
from rdsrt import (Audit, ContentType, Encoder, Fault, Held, InvalidText, Item, MalformedLine, NoText,
                   OutOfText, Receiver, Refused, Segments, Silent, Tag, View, Wait, closest, slot_time)
from rdsrt import _library

HI = (0xC201, 0x2140, 0x4849, 0x0D20)


class Word:
    """A number of another library, such as numpy's."""

    def __init__(self, number):
        self.number = number

    def __index__(self):
        return self.number


def sent(encoder, count):
    return [encoder.tick() for _ in range(count)]


def on_air(text, dwell=1):
    encoder = Encoder(0xC201, dwell=dwell)
    sent(encoder, dwell)
    encoder.set_text(text)
    return encoder


class Own(Receiver):
    pass


class PlainSegments:
    """The segments of a text or a name by the rules: those since the last change of the flag and the last M slots without
    one."""

    def __init__(self, dwell):
        self.dwell, self.held, self.age, self.flag = dwell, set(), dwell, None

    def slot(self, segment):
        """Takes a slot, with the flag and the number of a segment or None."""
        self.age = min(self.age + 1, self.dwell)
        if self.age == self.dwell:
            self.held = set()
        if segment:
            flag, address = segment
            self.held = {address} | (self.held if flag == self.flag else set())
            self.flag, self.age = flag, 0


def segment_in(group, kind, bits):
    """Returns the flag and the number of a segment in a group of this kind, or None."""
    is_one = group is not None and group[0] == 0xC201 and group[1] >> 11 == kind
    return (group[1] >> 4 & 1, group[1] & bits) if is_one else None


class Receivers(unittest.TestCase):
    def test_segments_are_those_of_the_rules(self):
        rng = random.Random(6)
        for dwell in (1, 2, 9, 40):
            sent = by_chance.heard(rng, by_chance.groups(rng, dwell, 1500), 0.5)
            receiver, text, name = Receiver(0xC201, dwell), PlainSegments(dwell), PlainSegments(dwell)
            for slot, group in enumerate(sent):
                receiver.slot(group)
                text.slot(segment_in(group, 4, 15))
                name.slot(segment_in(group, 20, 1))
                wanted = tuple(Segments(tuple(sorted(it.held)), it.age) for it in (text, name))
                self.assertEqual(receiver.segments, wanted, f"dwell {dwell}, slot {slot}")

    def test_segments_with_a_window_are_those_that_came_twice(self):
        receiver = Receiver(0xC201, 8, window=3)
        receiver.slot(HI)
        self.assertEqual(receiver.segments, (((), 8), ((), 8)))
        receiver.slot(HI)
        self.assertEqual(receiver.segments, (((0,), 0), ((), 8)))

    def test_shows_and_forgets(self):
        receiver = Receiver(0xC201, dwell=2)
        self.assertEqual(receiver.view, View())
        self.assertEqual(list(receiver.watch([None, HI, None, None, None])), [(1, View("HI")), (3, View())])
        self.assertEqual((receiver.pi, receiver.dwell), (0xC201, 2))
        self.assertIn("C201", repr(receiver))

    def test_the_view_keeps_a_text(self):
        receiver = Receiver(0xC201, dwell=2, keep_seconds=slot_time(3))
        self.assertEqual(list(receiver.watch([HI, *[None] * 6])), [(0, View("HI")), (5, View())])
        receiver.slot(HI)
        for _ in range(2):
            receiver.slot(None)
        self.assertEqual((receiver.view, receiver.received, receiver.keep), (View("HI"), View(), 3))
        # the first segment of a text with the other flag
        receiver.slot((0xC201, 0x2151, 0x594F, 0x0D20))
        self.assertEqual(receiver.view, View())
        self.assertEqual((Receiver(1, keep_seconds=60).keep, Receiver(1).keep), (685, 0))
        self.assertEqual(Receiver(1, keep_seconds=slot_time(0xFFFF)).keep, 0xFFFF)
        for seconds in (-0.1, 5740, float("nan"), float("inf")):
            with self.assertRaises(ValueError):
                Receiver(1, keep_seconds=seconds)

    def test_slot_says_whether_the_view_may_have_changed(self):
        receiver = Receiver(0xC201)
        self.assertEqual([receiver.slot(it) for it in (None, HI, HI)], [False, True, False])

    def test_other_programmes_are_lost_slots(self):
        receiver = Receiver(0xF201, dwell=1)
        self.assertFalse(receiver.slot(HI))
        receiver.slot((0xF201, *HI[1:]))
        self.assertTrue(receiver.slot(HI))
        self.assertEqual(receiver.view, View())

    def test_a_window_asks_for_two_receipts(self):
        # a receiver without a window shows the wrong group
        once, twice = Receiver(0xC201, 8), Receiver(0xC201, 8, window=4)
        wrong, right = (0xC201, 0x2140, 0x4841, 0x0D20), (0xC201, 0x2140, 0x4849, 0x0D20)
        shown = []
        for group in (wrong, right, None, right):
            once.slot(group)
            twice.slot(group)
            shown.append((once.view.text, twice.view.text))
        self.assertEqual(shown[0], ("HA", None))
        self.assertEqual(shown[1:3], [(shown[1][0], None)] * 2)
        self.assertEqual(shown[3][1], "HI")
        self.assertEqual((once.window, twice.window), (None, 4))
        self.assertEqual(repr(twice)[:40], "<Receiver of C201, dwell 8, window 4: Vi")
        self.assertEqual(copy.copy(twice).view.text, "HI")
        for window in (-1, 0, 1, 256):
            with self.assertRaisesRegex(ValueError, "window is"):
                Receiver(0xC201, 8, window=window)
        late = Receiver(0xC201, 8, window=3)
        self.assertEqual([late.slot(group) for group in (right, None, None, right)][-1], False)

    def test_numbers(self):
        for pi, dwell in ((-1, 128), (0x10000, 128), (0xC201, 0), (0xC201, 65536), (2 ** 64 + 1, 128)):
            with self.assertRaises(ValueError):
                Receiver(pi, dwell)
        for group in ((), (1, 2, 3), (1, 2, 3, 4, 5), (0x10000, 0, 0, 0), (-1, 0, 0, 0), (0, 0, 0, 2 ** 16)):
            with self.assertRaises(ValueError):
                Receiver(0xC201).slot(group)
        with self.assertRaises(TypeError):
            Receiver(0xC201, 1.5)
        with self.assertRaises(TypeError):
            Receiver(0xC201).slot((0xC201, 1.0, 2, 3))
        receiver = Receiver(Word(0xC201), Word(1))
        self.assertTrue(receiver.slot([Word(it) for it in HI]))
        self.assertTrue(Receiver(0, 1) == Receiver(0, 1) and Receiver(0xFFFF, 65535) == Receiver(0xFFFF, 65535))


    def test_wrong_types(self):
        receiver, encoder, audit = Receiver(0xC201), on_air("HI"), Audit(0xC201)
        for call in (lambda: receiver.slot(b"abcd"), lambda: audit.slot({1, 2, 3, 4}), lambda: receiver.slot("abcd")):
            with self.assertRaisesRegex(TypeError, "a group is"):
                call()
        for call in (lambda: encoder.set_text(b"x"), lambda: encoder.set_name(None), lambda: closest(b"x")):
            with self.assertRaisesRegex(TypeError, "a text is a str"):
                call()
        with self.assertRaisesRegex(TypeError, "the piece of artist is a str"):
            encoder.tag(artist=b"HI")
        with self.assertRaisesRegex(ValueError, "the piece of artist is empty"):
            encoder.tag(artist="")
        with self.assertRaisesRegex(TypeError, "a content type is"):
            receiver.view.tag("ITEM_ARTIST")
        with self.assertRaisesRegex(TypeError, "pi is an int"):
            Receiver("C201")
        self.assertEqual((receiver, audit.slots), (Receiver(0xC201), 0))

    def test_numbers_are_read_only(self):
        for it, names in ((Receiver(0xC201), ("pi", "dwell")), (Audit(0xC201), ("pi", "dwell", "late", "slots")),
                          (Encoder(0xC201), ("pi", "dwell", "late", "pty", "tp"))):
            for name in names:
                with self.assertRaises(AttributeError):
                    setattr(it, name, 1)
        encoder = Encoder(1, pty=2, tp=True, dwell=3, late=4)
        self.assertEqual((encoder.pi, encoder.pty, encoder.tp, encoder.dwell, encoder.late), (1, 2, True, 3, 4))
        audit = Audit(1, 2, 3)
        self.assertEqual((audit.pi, audit.dwell, audit.late, audit.slots), (1, 2, 3, 0))


class Encoders(unittest.TestCase):
    def test_a_song(self):
        encoder = Encoder(0xC201, pty=10, tp=True, dwell=16)
        with self.assertRaises(Silent) as silent:
            encoder.set_text("ABBA - WATERLOO")
        self.assertEqual((silent.exception.slots, str(silent.exception)), (16, "silent for 16 more slots"))
        self.assertEqual(encoder.wait, Wait(16, 0, 0))
        self.assertEqual(sent(encoder, 16), [None] * 16)
        with self.assertRaises(NoText):
            encoder.tag(artist="ABBA")
        encoder.set_text("ABBA - WATERLOO")
        encoder.tag(artist="ABBA", title="WATERLOO")
        encoder.set_name("POP")
        self.assertEqual((encoder.text, encoder.name), ("ABBA - WATERLOO", "POP     "))
        with self.assertRaises(Held) as held:
            encoder.set_text("NEWS")
        self.assertEqual((held.exception.slots, encoder.wait.text), (32, 32))
        groups = sent(encoder, 60)
        self.assertEqual({it[1] & 0x7E0 for it in groups if it}, {0x400 | 10 << 5})
        *_, (_, view) = Receiver(0xC201, dwell=16).watch(groups)
        self.assertEqual((view.text, view.name, view.item), ("ABBA - WATERLOO", "POP     ", Item(False, True)))
        title, artist = Tag(ContentType.ITEM_TITLE, "WATERLOO", 7, 8), Tag(ContentType.ITEM_ARTIST, "ABBA", 0, 4)
        self.assertEqual(view.tags, (title, artist))
        self.assertEqual((view.tag(ContentType.ITEM_ARTIST), view.tag(2)), ("ABBA", None))

    def test_invalid_texts(self):
        encoder = on_air("")
        for text, place in (("x" * 65, None), ("a語", 1), ("ab\\x", 2), ("é\\x01", 1), ("é\\x41\\x01", 5),
                            ("é\ud800", 1), ("a\n", 1), ("^", 0)):
            with self.assertRaises(InvalidText) as invalid:
                encoder.set_text(text)
            self.assertEqual(invalid.exception.place, place, text)
        for name, place in (("NINECHARS", None), ("A\\x0A", 1)):
            with self.assertRaises(InvalidText) as invalid:
                encoder.set_name(name)
            self.assertEqual(invalid.exception.place, place, name)
        self.assertEqual((encoder.text, encoder.name), ("", None))

    def test_tags(self):
        encoder = on_air("short")
        for tags, number in ((((1, 0, 6),), 1), (((1, 5, 1),), 1), (((1, 0, 5), (2, 4, 2)), 2)):
            with self.assertRaises(OutOfText) as out:
                encoder.set_tags(*tags)
            self.assertEqual(out.exception.tag, number)
        for tags in (((0, 0, 1),), ((64, 0, 1),), ((1, 0, 0),), ((1, 64, 1),), ((1, 0, 65),), ((1, 0, 1),) * 3,
                     ((1, 0, 1), (2, 0, 33)), ((257, 0, 1),), ((1, 256, 1),)):
            with self.assertRaises(ValueError):
                encoder.set_tags(*tags)
        self.assertTrue(issubclass(Held, Refused) and issubclass(OutOfText, Refused))

    def test_tags_by_name(self):
        encoder = on_air("A\\x0AB: Ærø, INFO", dwell=4)
        for pieces, number in (({"artist": "B: x"}, 1), ({"artist": "B", "title": "X"}, 2)):
            with self.assertRaises(OutOfText) as out:
                encoder.tag(**pieces)
            self.assertEqual((out.exception.tag, out.exception.name), (number, [*pieces][number - 1]))
        for pieces in ({"nothing": "A"}, {"dummy_class": "A"}, {"artist": ""},
                       {"artist": "A", "title": "B", "album": "A"}):
            with self.assertRaises(ValueError):
                encoder.tag(**pieces)
        encoder.tag(artist="Ærø", info_news="INFO", toggle=True, running=False)
        *_, (_, view) = Receiver(0xC201, dwell=4).watch(sent(encoder, 40))
        news, artist = Tag(ContentType.INFO_NEWS, "INFO", 10, 4), Tag(ContentType.ITEM_ARTIST, "Ærø", 5, 3)
        self.assertEqual(view.tags, (news, artist))
        self.assertEqual(view.item, Item(True, False))

    def test_slots_that_are_not_free(self):
        encoder = on_air("HI")
        self.assertIsNone(encoder.tick(free=False))
        self.assertIn(HI[2:], [it[2:] for it in sent(encoder, 8) if it])

    def test_numbers(self):
        for more in ({"pty": 32}, {"pty": -1}, {"dwell": 0}, {"dwell": 65536}, {"late": 1025}, {"late": -1},
                     {"pi": 65536}):
            with self.assertRaises(ValueError):
                Encoder(**{"pi": 0xC201, **more})
        self.assertEqual(Encoder(1, dwell=65535, late=1024).wait.silent, 65535 + 1024)


class TagGroups(unittest.TestCase):
    def test_both_types_change_places(self):
        """In a group's own type, and in a 3A."""
        for one, other in ((0xB008, 0xC008), (0x3016, 0x3018), (0x2140, 0x2140), (0xB808, 0xB808)):
            for before, after in ((one, other), (other, one)):
                self.assertEqual(rdsrt.exchange_tag_group(12, [0xC201, before, 1, 2]), (0xC201, after, 1, 2))
        self.assertIsNone(rdsrt.exchange_tag_group(12, None))

    def test_a_receiver_of_tags_in_12a(self):
        receiver, announcement, tags = Receiver(0xC201), (0xC201, 0x3018, 0, 0x4BD7), (0xC201, 0xC148, 0x2002, 0)
        for group in (announcement, HI, tags):
            receiver.slot(rdsrt.exchange_tag_group(12, group))
        self.assertEqual(receiver.view.tags[0].text, "HI")

    def test_other_numbers(self):
        for number in (-1, 0, 4, 10, 14, 256):
            for group in (HI, None):
                with self.assertRaises(ValueError):
                    rdsrt.exchange_tag_group(number, group)


class Audits(unittest.TestCase):
    def test_an_encoder_passes(self):
        encoder, audit = Encoder(0xC201, dwell=4), Audit(0xC201, dwell=4)
        groups = sent(encoder, 4)
        encoder.set_text("HI")
        self.assertIsNone(audit.take(groups + sent(encoder, 20)))
        self.assertEqual((audit.passed, audit.slots), (True, 24))
        self.assertTrue(audit.texts_turn_the_flag and audit.names_turn_the_flag)

    def test_a_change_fails(self):
        audit = Audit(0xC201)
        changed = (0xC201, 0x2140, 0x4850, 0x0D20)
        self.assertEqual(audit.take([HI, changed, HI]), (1, Fault.CHANGED))
        self.assertEqual((audit.passed, audit.slots), (False, 2))
        self.assertEqual(audit.slot(HI), Fault.CHANGED)
        self.assertFalse(audit.texts_turn_the_flag or audit.names_turn_the_flag)
        self.assertEqual([str(it) for it in Fault], ["Changed", "NotOneText", "EarlyFlag", "EarlyTag", "TagOutside"])

    def test_flags(self):
        audit = Audit(0xC201, dwell=1)
        lost, name = [None] * 4, (0xC201, 0xA140, 0x4849, 0x2020)
        audit.take([HI, *lost, (0xC201, 0x2140, 0x594F, 0x0D20), name, (0xC201, 0xA150, 0x4849, 0x2020)])
        self.assertEqual((audit.passed, audit.texts_turn_the_flag, audit.names_turn_the_flag), (True, False, True))

    def test_padding(self):
        """Bytes behind the carriage return do not count; those before it do."""
        hi, behind, others = (0xC201, 0x2140, 0x4849, 0x0D20), (0xC201, 0x2141, 0, 0x0D0A), (0xC201, 0x2141, 0x5A5A, 0x2020)
        self.assertEqual(Audit(0xC201, 8).take([hi, behind]), (1, Fault.NOT_ONE_TEXT))
        audit = Audit(0xC201, 8, padded=True)
        self.assertIsNone(audit.take([hi, behind, others, hi]))
        self.assertEqual(audit.texts, 1)
        self.assertEqual(audit.slot((0xC201, 0x2140, 0x594F, 0x0D20)), Fault.CHANGED)

    def test_lateness(self):
        other = (0xC201, 0x2150, 0x594F, 0x0D20)
        groups = [HI, other, None, None, (0xC201, 0x2140, 0x4841, 0x0D20)]
        self.assertIsNone(Audit(0xC201, dwell=4).take(groups))
        self.assertEqual(Audit(0xC201, dwell=4, late=1).take(groups), (4, Fault.EARLY_FLAG))

    def test_numbers(self):
        for pi, dwell, late in ((-1, 1, 0), (1, 0, 0), (1, 65536, 0), (1, 1, 1025)):
            with self.assertRaises(ValueError):
                Audit(pi, dwell, late)
        with self.assertRaises(ValueError):
            Audit(1).slot((1, 2, 3))


class AllFaults(unittest.TestCase):
    def test_each_text_has_each_fault_once(self):
        audit = Audit(0xC201, 8)
        tags, other = (0xC201, 0xB148, 0x2002, 0), (0xC201, 0x2150, 0x594F, 0x0D20)
        changed = (0xC201, 0x2140, 0x4850, 0x0D20)
        found = [audit.all_faults(group) for group in (HI, tags, tags, other, HI, changed, None)]
        both = (Fault.CHANGED, Fault.EARLY_FLAG)
        self.assertEqual(found, [(), (Fault.EARLY_TAG,), (), (), (Fault.EARLY_FLAG,), both, ()])
        self.assertEqual((audit.slots, audit.texts, audit.names, audit.passed), (7, 4, 0, False))
        self.assertEqual((audit.pi, audit.dwell, audit.late), (0xC201, 8, 0))
        self.assertEqual(audit.slot(other), Fault.EARLY_TAG)

    def test_a_recording(self):
        tags = (0xC201, 0xB148, 0x2002, 0)
        for running, faults in ((False, [(Fault.EARLY_TAG,), (), (Fault.EARLY_TAG,)]), (True, [(), (), ()])):
            audit = Audit(0xC201, running=running)
            self.assertEqual([audit.all_faults(group) for group in (tags, HI, tags)], faults)


class Copies(unittest.TestCase):
    def objects(self):
        receiver, audit = Receiver(0xC201, 4), Audit(0xC201, 4)
        for it in (receiver, audit):
            it.slot(HI)
        return receiver, on_air("HI", 4), audit

    def test_copies_go_their_own_way(self):
        ends = (lambda it: it.slot(None), lambda it: it.tick(), lambda it: it.slot(None))
        for one, slot in zip(self.objects(), ends):
            others = [copy.copy(one), copy.deepcopy(one), pickle.loads(pickle.dumps(one))]
            self.assertTrue(all(it == one for it in others))
            before = repr(others[0])
            for _ in range(9):
                slot(one)
            self.assertTrue(all(it != one and repr(it) == before for it in others))

    def test_comparison(self):
        receiver, encoder, audit = self.objects()
        self.assertNotEqual(receiver, audit)
        self.assertNotEqual(Receiver(1), Receiver(2))
        self.assertNotEqual(receiver, None)
        for it in (receiver, encoder, audit):
            with self.assertRaises(TypeError):
                hash(it)

    def test_other_states_are_refused(self):
        state = Receiver(1).__getstate__()
        for change in ({"_its": b""}, {"_abi": 1}):
            with self.assertRaises(ValueError):
                Receiver(1).__setstate__({**state, **change})
        less = [{name: it for name, it in state.items() if name != left} for left in state]
        for other in ({}, {**state, "more": 1}, Audit(1).__getstate__(), *less):
            receiver = Receiver(2)
            with self.assertRaises(ValueError):
                receiver.__setstate__(other)
            self.assertEqual(receiver, Receiver(2))

    def test_no_attribute_can_be_added(self):
        """A typing error would be silent. A class of a user may have its own."""
        for it in self.objects():
            with self.assertRaises(AttributeError):
                it.Window = 8
        own = Own(0xC201, 4)
        own.station = "JAZZ"
        for other in (copy.copy(own), pickle.loads(pickle.dumps(own))):
            self.assertEqual((other, other.station), (own, "JAZZ"))
        self.assertIs(weakref.ref(own)(), own)

    def test_exceptions_are_pickled(self):
        for one in (Silent(5), Held(6), NoText(), OutOfText(2), OutOfText(1, "artist"),
                    InvalidText("no RDS character", 3), MalformedLine(4, "it has no space")):
            other = pickle.loads(pickle.dumps(one))
            self.assertEqual((type(other), vars(other), str(other)), (type(one), vars(one), str(one)))


class Threads(unittest.TestCase):
    def test_each_its_own(self):
        shown = []

        def listen(pi):
            receiver = Receiver(pi)
            for _ in range(2000):
                receiver.slot((pi, *HI[1:]))
            shown.append((pi, receiver.view.text))
        threads = [threading.Thread(target=listen, args=(pi,)) for pi in range(8)]
        for it in threads:
            it.start()
        for it in threads:
            it.join()
        self.assertEqual(sorted(shown), [(pi, "HI") for pi in range(8)])

    def test_each_call_keeps_the_lock_of_python(self):
        # a call that gives it up runs while another thread reads or writes the struct
        for name in _library.CALLS:
            call = getattr(_library.library(), f"rdsrt_{name}")
            self.assertTrue(call._flags_ & ctypes._FUNCFLAG_PYTHONAPI, name)

    def test_a_view_beside_slots_of_another_thread_is_no_mix(self):
        texts = ["A" * 64, "B" * 64]
        rows = [[(0xC201, 0x2000 | flag << 4 | at, *[0x4141 + 0x0101 * flag] * 2) for at in range(16)] for flag in (0, 1)]
        receiver, done, wrong, before = Receiver(0xC201), threading.Event(), [], sys.getswitchinterval()

        def read():
            while not done.is_set():
                if (text := receiver.view.text) not in (None, *texts):
                    wrong.append(text)
        readers = [threading.Thread(target=read) for _ in range(2)]
        sys.setswitchinterval(1e-6)
        try:
            for it in readers:
                it.start()
            for number in range(200):
                for group in rows[number % 2]:
                    receiver.slot(group)
        finally:
            done.set()
            sys.setswitchinterval(before)
            for it in readers:
                it.join()
        self.assertEqual((wrong, receiver.view.text), ([], texts[1]))


class Json(unittest.TestCase):
    def test_views(self):
        self.assertEqual(View().as_json(), {"radiotext": None, "radiotext_plus": None, "ptyn": None})
        tags = (Tag(ContentType.ITEM_ARTIST, "Ærø", 0, 3), Tag(54, "X", 5, 1), Tag(ContentType.INFO_NEWS_LOCAL, "", 0, 0))
        plus = {"item_running": False, "item_toggle": 1,
                "tags": [{"content-type": "item.artist", "data": "Ærø"}, {"content-type": "54", "data": "X"},
                         {"content-type": "info.news.local", "data": ""}]}
        self.assertEqual(View("", "POP MIX ", Item(True, False), tags).as_json(),
                         {"radiotext": "", "radiotext_plus": plus, "ptyn": "POP MIX"})
        self.assertEqual(View(name="        ").as_json()["ptyn"], "")


class Names(unittest.TestCase):
    def test_each_public_name_has_a_test(self):
        folder, texts = os.path.dirname(os.path.abspath(__file__)), ""
        for name in os.listdir(folder):
            if name.endswith(".py"):
                with open(os.path.join(folder, name), encoding="utf-8") as file:
                    texts += file.read()
        used = set(re.findall(r"\w+", texts))
        members = {it for name in ("Receiver", "Encoder", "Audit", "View") for it in vars(getattr(rdsrt, name))
                   if not it.startswith("_")}
        # NoLibrary needs a process of its own, and Group is a type
        self.assertEqual(({*rdsrt.__all__} | members) - used - {"NoLibrary", "Group"}, set())

    def test_each_public_name_has_a_docstring(self):
        for name in rdsrt.__all__:
            it = getattr(rdsrt, name)
            if inspect.isclass(it) or inspect.isfunction(it):
                self.assertTrue(it.__doc__, name)
                members = vars(it).items() if inspect.isclass(it) and it.__module__.startswith("rdsrt") else ()
                for member, value in members:
                    if not member.startswith("_") and (callable(value) or isinstance(value, property)):
                        self.assertTrue(value.__doc__, f"{name}.{member}")

    def test_an_object_without_a_dwell_has_the_default(self):
        for make in (Receiver, Encoder, Audit):
            self.assertEqual(make(0xC201), make(0xC201, dwell=rdsrt.DEFAULT_DWELL))
            self.assertNotEqual(make(0xC201), make(0xC201, dwell=rdsrt.DEFAULT_DWELL + 1))

    def test_name_is_ptyn_wherever_it_stands(self):
        for it in (View, Encoder, Encoder.set_name, Encoder.name, Wait, Audit.names_turn_the_flag, View.as_json, rdsrt):
            self.assertIn("PTYN", it.__doc__)
        for it in (View, Encoder, Encoder.set_name, Encoder.name, rdsrt):
            self.assertIn("(PS)", it.__doc__)


if __name__ == "__main__":
    unittest.main()
