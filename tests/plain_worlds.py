"""Worlds by chance beside a diary of all that was on air.

The lines of the program say what was accepted and what is shown. The diary keeps the whole list of slots. The receivers
keep ages. They share no code.
"""
import collections
import itertools
import random

from tests import outputs, random_scripts
from tests.support import ran

DWELL, SLOTS, WORLDS = 4, 64, 200
LOST = "---- ---- ---- ----"
TEXTS = ("FIRST SONG", "THIRD SONG", "OTHER SONG", "HI")
NAMES = ("JAZZ FM ", "NEWS NOW")
CLASSES = {1: "ITEM.TITLE", 4: "ITEM.ARTIST", 63: "63"}
# one that doesn't end in the text of two characters, pieces that differ from text to text, and the class of no tag
TAGS = ((1, 0, 4), (4, 2, 2), (63, 0, 0), (0, 0, 0))


def random_rows(rng, slots=SLOTS):
    """Gives a command for each slot of a station, and whether the slot is free. No receiver is there."""
    for _ in range(slots):
        command = rng.choices(("restart", "text", "name", "tags", "-"), weights=(3, 21, 8, 12, 20))[0]
        tags = " ".join(str(it) for tag in rng.choices(TAGS, k=2) for it in tag)
        argument = {"text": rng.choice(TEXTS), "name": rng.choice(NAMES), "tags": f"1 1 {tags}"}.get(command, "")
        yield random_scripts.Row(command, argument, "1" if rng.random() < 7 / 8 else "0", "")


def segments(text):
    """Returns the segments of a text or a name with their addresses."""
    body = text.encode() if text in NAMES else text.encode() + b"\r"
    body += b" " * (-len(body) % 4)
    return [(place // 4, body[place:place + 4]) for place in range(0, len(body), 4)]


def wrong_group(rng):
    """Returns blocks 2 to 4 of a group that the station may not have sent: a segment, or a pair of tags."""
    flag, kind = rng.randrange(2), rng.random()
    if kind < 0.8:
        value = rng.choice(TEXTS if kind < 0.6 else NAMES)
        address, body = rng.choice(segments(value))
        return f"{2 if kind < 0.6 else 10:X}0{flag}{address}{body.hex()}".upper()
    (class_, start, extra), _ = rng.sample(TAGS[:2], 2)
    return f"B0{flag}{class_ >> 3}{(class_ & 7) << 13 | start << 7 | extra << 1:04X}0000"


class Wrongs:
    """Gives wrong groups that keep the premise: none comes twice less than a window apart."""

    def __init__(self, rng, window):
        self.rng, self.window, self.last = rng, window, {}

    def reception(self, slot):
        """Returns a reception with a wrong group, or a lost slot."""
        group = wrong_group(self.rng)
        if slot - self.last.get(group, -self.window) < self.window:
            return "L"
        self.last[group] = slot
        return f"W{group}"


def script(rows):
    """Returns the rows as a script."""
    return b"".join(map(random_scripts.line, rows))


class Acceptance:
    """Says of each command of a station whether it is accepted, by the rules of docs/FORMATS.md: nothing is for the
    spacing after a restart, a text or a name for two spacings after the one before, and tags only if they end in the
    text on air."""

    def __init__(self, spacing):
        self.spacing, self.silent_until, self.held_until, self.text = spacing, spacing, {}, None

    def takes(self, slot, command, argument):
        """Returns whether the command of this slot is accepted. Slots come in their order."""
        if command == "restart":
            self.silent_until, self.held_until, self.text = slot + self.spacing, {}, None
        if command in ("restart", "-") or slot < max(self.silent_until, self.held_until.get(command, 0)):
            return False
        if command == "tags":
            _, _, *numbers = map(int, argument.split())
            tags = (numbers[:3], numbers[3:])
            return self.text is not None and all(start + extra < len(self.text) for kind, start, extra in tags if kind)
        self.held_until[command] = slot + 2 * self.spacing
        if command == "text":
            self.text = argument
        return True


def accepted_of(rows, spacing):
    """Returns the slots in which a station accepts a text, a name or tags. It asks no program."""
    rules = Acceptance(spacing)
    return {slot for slot, row in enumerate(rows) if rules.takes(slot, row.command, row.argument)}


class Diary:
    """Keeps for each service, at the end of each slot, the number of the broadcast on air and its characters."""

    def __init__(self, rows, accepted):
        self.slots, self.pieces = [], collections.defaultdict(set)
        now, counts = {}, collections.Counter()
        for slot, row in enumerate(rows):
            if row.command == "restart":
                now = {}
            elif slot in accepted and row.command == "tags":
                number, text = now["text"]
                self.pieces[number] |= pieces(row.argument, text)
            elif slot in accepted:
                counts[row.command] += 1
                now = {**now, row.command: (counts[row.command], row.argument)}
            self.slots.append(now)

    def numbers(self, service, value, slot, within):
        """Returns the broadcasts with these characters that were on air in so many slots up to this one."""
        lately = [it[service] for it in self.slots[max(0, slot + 1 - within):slot + 1] if service in it]
        return {number for number, sent in lately if sent == value}

    def wrongs(self, slot, within, views):
        """Returns the parts of views that were not on air lately, the tags that were not sent for the text, and the
        texts of two broadcasts that are not neighbours."""
        found, texts = [], []
        for view in views:
            for service in ("text", "name"):
                if service in view and not self.numbers(service, view[service], slot, within):
                    found.append((slot, service, view[service]))
            numbers = self.numbers("text", view.get("text"), slot, within)
            sent = set().union(*(self.pieces[it] for it in numbers))
            found += [(slot, part, view[part]) for part in ("tag1", "tag2") if part in view and view[part] not in sent]
            texts.append(numbers)
        for one, two in itertools.combinations(texts, 2):
            if one and two and min(abs(it - other) for it in one for other in two) > 1:
                found.append((slot, "apart", views))
        return found


def pieces(argument, text):
    """Returns the pieces that the tags of an argument show of a text, as the program prints them."""
    numbers = [int(it) for it in argument.split()][2:]
    tags = (numbers[:3], numbers[3:])
    return {f'{CLASSES[kind]} "{text[start:start + extra + 1]}"' for kind, start, extra in tags if kind}


def pieces_by_part(tags, text):
    """Returns the pieces of a text that two tags show, by part: each a class, a start and a length less one."""
    return {part: f'{CLASSES[kind]} "{text[start:start + extra + 1]}"'
            for part, (kind, start, extra) in zip(("tag1", "tag2"), tags) if kind and start + extra < len(text)}


def shown(lines, slots):
    """Returns the view at the end of each of so many slots, by lines of `decode`, with reasons or without: part and
    value."""
    changes, view, views = collections.defaultdict(dict), {}, []
    for line in lines:
        slot, part, value = line.split(" ", 2)
        is_none = value.split(" ")[0] == "none"
        changes[int(slot)][part] = None if is_none else value.strip('"') if part in ("text", "name") else value
    for slot in range(slots):
        view = {part: value for part, value in {**view, **changes[slot]}.items() if value is not None}
        views.append(view)
    return views


def accepted_in(replies):
    """Returns the slots in which a text, a name or tags were accepted."""
    return {slot for slot, _, answer in replies if answer == "ok "}


def encoded(rng, late):
    """Returns the slots that an encoder sends, and their diary."""
    rows = list(random_rows(rng))
    output = ran(["encode", "--pi", "C201", "--m", str(DWELL), "--k", str(late)], script(rows))[1]
    replies, groups, _, slots = outputs.parts_of(output, True)
    return [groups.get(slot, LOST) for slot in range(slots)], Diary(rows, accepted_in(replies))


def decoded(dwell, log):
    """Returns the view of a receiver at the end of each of its slots."""
    lines = ran(["decode", "--pi", "C201", "--m", str(dwell)], "".join(f"{it}\n" for it in log).encode())[1]
    return shown(lines.decode().splitlines(), len(log))


def own_slots(rng, slots, may_lose):
    """Returns the slots as a clock of its own counts them, each with the station's slot. The clock loses a slot if it
    lost fewer than `may_lose` within a dwell. Or it counts a slot twice, or the group is lost."""
    own, lost = [], []
    for slot, line in enumerate(slots):
        draw = rng.randrange(64)
        if draw < 16 and sum(place + DWELL > len(own) for place in lost) < may_lose:
            lost.append(len(own))
        elif 16 <= draw < 32:
            own += [(slot, LOST)] + ([(slot, line)] if draw < 24 else [])
        else:
            own.append((slot, line))
    return own


def shown_by_the_clock(rng, slots, may_lose):
    """Returns the view of a receiver with a clock of its own at the end of each slot of the station."""
    own = own_slots(rng, slots, may_lose)
    views = dict(zip((slot for slot, _ in own), decoded(DWELL, [line for _, line in own])))
    # a slot that isn't counted leaves the view as it is
    return list(itertools.accumulate(range(len(slots)), lambda view, slot: views.get(slot, view), initial={}))[1:]


def clocks(seed, late, may_lose):
    """Returns the slots of a station, and the wrong views of two receivers whose clocks may lose so many slots within a
    dwell."""
    rng = random.Random(seed)
    slots, diary = encoded(rng, late)
    pair = [shown_by_the_clock(rng, slots, may_lose) for _ in range(2)]
    return slots, [it for slot, views in enumerate(zip(*pair)) for it in diary.wrongs(slot, DWELL + late, views)]
