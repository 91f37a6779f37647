"""Radios with the flag bit alone, by chance, beside a diary of all that was on air.

Such a radio keeps segments, and tags for them, until a segment with the other flag comes. It never forgets. `encode`
sends the logs. A radio loses slots, restarts, gets groups late and counts slots wrong. Its views are compared in two
ways:

- with `decode --m 65535` over the same slots. The law the_flag_alone_is_a_long_dwell says that both show the same.
- with the diary. In each slot in which the premise of a promise holds, the promise holds too. If the premise fails,
  some radios break the promise: so the test can find a breach.

The promises, with d = M + K:

- text: the text shown is that of the broadcast in which the last segment heard was sent. Premise: of each 2 d slots in
  a row of a text the radio heard a segment, and the first text after each restart of the encoder was safe: empty, or
  the last one with flag 0 again, or any one if the last one had flag 1 and lasted for 2 d slots.
- tag: each tag shown was sent for the text shown. Premise: that of text, and of each d slots in a row of a text the
  radio heard a segment.
- behind: the broadcast of the text shown is the newest one or the one before, or the empty text came since. Premise:
  that of text, up to the present slot, and the first text after each restart was the empty one.
- news: since the broadcast after that of the text shown, each text was empty or had the flag and the characters of one
  of the two before it. Premise: that of text, up to the present slot.
- name, news of names: the same as text and news, for names.
- each name: the same as name. Premise: the radio heard a segment of each name, and each name has another flag than the
  one before, or the same characters.
"""
import collections

from tests import outputs, plain_worlds, random_scripts
from tests.plain_receiver import LOST, Receiver, tags_in
from tests.support import ran

SLOTS = 96
LONG_DWELL = "65535"
PROMISES = ("text", "tag", "behind", "news", "name", "news of names", "each name")
# the reception of a slot without a group
NOTHING, RESTART = "nothing", "restart"


# ---- the station


class Broadcast:
    """A text or a name on air: its characters, its first and its last slot, its flag, and the tags that were sent for
    it."""

    def __init__(self, value, start, number):
        self.value, self.start, self.end, self.flag, self.pieces = value, start, SLOTS, number % 2, set()
        # whether a restart came before it, and no broadcast since
        self.is_first = number == 0 and start > 0


class Service:
    """Texts or names that the encoder accepted: how many since the restart, and the last one with flag 0."""

    def __init__(self, first):
        self.first, self.count, self.with_flag_0 = first, 0, None

    def accept(self, value):
        """Returns the value to set: `first` says what comes first after a restart."""
        if self.count == 0 and self.with_flag_0 is not None:
            value = {"empty": "", "again": self.with_flag_0, "any": value}[self.first]
        if self.count % 2 == 0:
            self.with_flag_0 = value
        self.count += 1
        return value


def commands(rng, spacing, first_text, first_name):
    """Gives the command of a station in each slot. After a restart the first text that is accepted is the empty one, or
    the last one with flag 0 again, or any one, and the first name one of the last two."""
    services = {"text": Service(first_text), "name": Service(first_name)}
    rules = plain_worlds.Acceptance(spacing)
    for slot in range(SLOTS):
        kind = rng.choices(("restart", "text", "name", "tags", "-"), weights=(2, 34, 20, 24, 20))[0]
        tags = " ".join(str(it) for tag in rng.choices(plain_worlds.TAGS, k=2) for it in tag)
        given = {"text": rng.choice(plain_worlds.TEXTS), "name": rng.choice(plain_worlds.NAMES), "tags": f"1 1 {tags}"}
        is_accepted = rules.takes(slot, kind, given.get(kind, ""))
        if kind == "restart":
            for it in services.values():
                it.count = 0
        elif kind in services and is_accepted:
            given[kind] = services[kind].accept(given[kind])
        yield random_scripts.Row(kind, given.get(kind, ""), "1" if rng.random() < 7 / 8 else "0", "")


def diary(rows, accepted):
    """Returns the broadcasts of texts and of names, oldest first."""
    found, on_air, counts = {"text": [], "name": []}, {}, collections.Counter()
    for slot, row in enumerate(rows):
        kind = row.command
        if kind == "restart":
            for it in on_air.values():
                it.end = slot - 1
            on_air, counts = {}, collections.Counter()
        elif slot in accepted and kind == "tags":
            on_air["text"].pieces |= plain_worlds.pieces(row.argument, on_air["text"].value)
        elif slot in accepted:
            if kind in on_air:
                on_air[kind].end = slot - 1
            on_air[kind] = Broadcast(row.argument, slot, counts[kind])
            counts[kind] += 1
            found[kind].append(on_air[kind])
    return found["text"], found["name"]


def sent(rng, dwell, late):
    """Returns the slots that an encoder sends, and the broadcasts of texts and of names."""
    firsts = rng.choice(("empty", "empty", "again", "any")), rng.choice(("again", "again", "any"))
    rows = list(commands(rng, dwell + late, *firsts))
    output = ran(["encode", "--pi", "C201", "--m", str(dwell), "--k", str(late)], plain_worlds.script(rows))[1]
    replies, groups, _, slots = outputs.parts_of(output, True)
    return [groups.get(slot, LOST) for slot in range(slots)], diary(rows, plain_worlds.accepted_in(replies))


# ---- the receptions and the views of a radio


def receptions(rng, may_lose):
    """Gives for each slot the slot whose group a radio gets, NOTHING or RESTART. A radio gets no group twice and none
    out of order."""
    lossy, late = (rng.choice((0.05, 0.2, 0.4)), rng.choice((0, 0, 2, 6))) if may_lose else (0, 0)
    last, fading = -1, 0
    for slot in range(SLOTS):
        fading = fading - 1 if fading else rng.randrange(16) if rng.random() < lossy / 8 else 0
        draw = rng.random()
        if may_lose and draw < 1 / 128:
            yield RESTART
        elif fading or draw < lossy or last == slot:
            yield NOTHING
        else:
            last = rng.randrange(max(last + 1, slot - late), slot + 1)
            yield last


def lives(rng, got):
    """Gives the slots that a radio counts, in a list for each of its lives: the station's slot, and the slot whose
    group it gets or None. It may count a slot three times, and may leave out a slot without a group."""
    miscounts, life = rng.choice((0, 0.2)), []
    for slot, source in enumerate(got):
        if source == RESTART:
            yield life
            life = []
        is_group, is_miscounted = source not in (NOTHING, RESTART), rng.random() < miscounts
        if is_miscounted and is_group:
            life += [(slot, None)] * rng.randrange(3)
        if is_group or not is_miscounted:
            life.append((slot, source if is_group else None))
    yield life


class Radio:
    """A radio with the flag bit alone: a receiver that never forgets. It counts the groups that it heard."""

    def __init__(self):
        self.receiver, self.count = Receiver(), 0

    def hear(self, line):
        """Takes a group."""
        self.count += 1
        self.receiver.hear(self.count, line)

    def view(self):
        """Returns the parts that the radio shows, with their values."""
        values = {service: self.receiver.value(service, self.count) for service in ("text", "name")}
        shown = {part: value.decode() for part, value in values.items() if value is not None}
        held = self.receiver.pairs(self.count) if "text" in shown else []
        return {**shown, **plain_worlds.pieces_by_part(tags_in(held[0]), shown["text"])} if held else shown


def decoded(log):
    """Returns the view of `decode` in each slot of the log, without items. The dwell is longer than any log here."""
    given = "".join(f"{line}\n" for line in log).encode()
    output = ran(["decode", "--pi", "C201", "--m", LONG_DWELL], given)[1].decode()
    return [{part: value for part, value in view.items() if part != "item"}
            for view in plain_worlds.shown(output.splitlines(), len(log))]


# ---- the premises, up to a slot


def hears_one_in(count, broadcasts, heard, now):
    """Returns whether a segment was heard of each so many slots in a row of a broadcast, up to now. Slots before the
    first segment that was heard do not count."""
    for it in broadcasts if heard else ():
        missed = 0
        for slot in range(max(it.start, min(heard) + 1), min(it.end, now) + 1):
            missed = 0 if slot in heard else missed + 1
            if missed == count:
                return False
    return True


def hears_each(broadcasts, heard, now):
    """Returns whether a segment was heard of each broadcast that another has followed. Broadcasts before the first
    segment that was heard do not count."""
    for it, after in zip(broadcasts, broadcasts[1:]):
        is_asked = after.start <= now and heard and min(heard) < it.start
        if is_asked and not any(it.start <= slot <= it.end for slot in heard):
            return False
    return True


def is_emptied(texts, now):
    """Returns whether the empty text came first after each restart."""
    return all(it.value == "" for it in texts[1:] if it.is_first and it.start <= now)


def is_safe(broadcasts, spacing, now):
    """Returns whether what came first after each restart was safe."""
    with_flag_0, before = None, None
    for it in broadcasts:
        is_again = with_flag_0 is None or it.value in ("", with_flag_0)
        is_after_long = before and before.flag and before.start + 2 * spacing <= before.end + 1
        if it.is_first and it.start <= now and not (is_again or is_after_long):
            return False
        with_flag_0, before = with_flag_0 if it.flag else it.value, it
    return True


def has_news(broadcasts, first, newest):
    """Returns whether one of these broadcasts is not empty and has the flag and the characters of neither of the two
    before it."""
    return any(it.value and all((it.flag, it.value) != (one.flag, one.value) for one in broadcasts[max(0, at - 2):at])
               for at, it in enumerate(broadcasts) if first <= at <= newest)


def turns(names, now):
    """Returns whether each name has another flag than the one before, or the same characters."""
    pairs = [(one, two) for one, two in zip(names, names[1:]) if two.start <= now]
    return all(one.flag != two.flag or one.value == two.value for one, two in pairs)


# ---- the promises


def on_air_in(broadcasts, slot):
    """Returns the number of the broadcast that was on air in the slot."""
    return next(number for number, it in enumerate(broadcasts) if it.start <= slot <= it.end)


class Judge:
    """Judges the view of one radio in each slot, by the broadcasts and by the slots in which its groups were sent."""

    def __init__(self, texts, names, spacing):
        self.texts, self.names, self.spacing = texts, names, spacing
        self.heard = {"2": [], "A": [], "B": []}

    def hear(self, line, sent_in):
        self.heard.get(line[5], []).append(sent_in)

    def is_heard(self, count, broadcasts, group, now):
        """Returns whether the premise of a text or a name holds: it was heard often enough, and what came first after
        restarts was safe."""
        return hears_one_in(count, broadcasts, self.heard[group], now) and is_safe(broadcasts, self.spacing, now)

    def of_text(self, view, slot):
        """Gives each promise on texts and tags that speaks of the view: its name, whether its premise holds, and
        whether it holds."""
        if "text" not in view:
            return
        last, tagged = self.heard["2"][-1], self.heard["B"][-1:]
        source, newest = on_air_in(self.texts, last), sum(it.start <= slot for it in self.texts) - 1
        premise = self.is_heard(2 * self.spacing, self.texts, "2", last)
        yield "text", premise, view["text"] == self.texts[source].value
        tags = {view[part] for part in ("tag1", "tag2") if part in view}
        if tags:
            often = hears_one_in(self.spacing, self.texts, self.heard["2"], max(last, *tagged))
            sent_for = set().union(*(it.pieces for it in self.texts if it.value == view["text"]))
            yield "tag", premise and often, tags <= sent_for
        since = [it.value for it in self.texts[source + 1:newest + 1]]
        heard = self.is_heard(2 * self.spacing, self.texts, "2", slot)
        yield "behind", heard and is_emptied(self.texts, slot), len(since) <= 1 or "" in since
        yield "news", heard, not has_news(self.texts, source + 2, newest)

    def of_name(self, view, slot):
        """Gives each promise on names that speaks of the view: its name, whether its premise holds, and whether it
        holds."""
        if "name" in view:
            last = self.heard["A"][-1]
            source, newest = on_air_in(self.names, last), sum(it.start <= slot for it in self.names) - 1
            is_right = view["name"] == self.names[source].value
            yield "name", self.is_heard(2 * self.spacing, self.names, "A", last), is_right
            heard = self.is_heard(2 * self.spacing, self.names, "A", slot)
            yield "news of names", heard, not has_news(self.names, source + 2, newest)
            yield "each name", hears_each(self.names, self.heard["A"], last) and turns(self.names, last), is_right


def played(life, slots, judge):
    """Plays a life of a radio. Returns its view in each slot, the judgements, and the log that it got."""
    radio, views, judgements, log = Radio(), [], [], []
    for slot, source in life:
        log.append(LOST if source is None else slots[source])
        if log[-1] != LOST:
            radio.hear(log[-1])
            judge.hear(log[-1], source)
        views.append(radio.view())
        judged = (*judge.of_text(views[-1], slot), *judge.of_name(views[-1], slot))
        judgements += [(*it, slot, views[-1]) for it in judged]
    return views, judgements, log
