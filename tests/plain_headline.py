"""The headline in Python: each definition of crates/rds_wire/specs/Headline.antt, in its order and under its name.

It takes the script, the log, what reached a receiver and what was printed, as texts, and asks the program nothing. The
scripts of the tests have no text with an escape or a quotation mark, so their texts are printed as they are given.
"""
import collections
import csv
import itertools

# the names of the classes in the scripts of the tests
CLASSES = {1: "ITEM.TITLE", 4: "ITEM.ARTIST"}

Air = collections.namedtuple("Air", "number started set")


def slots(log):
    """Returns the slots of a log: the blocks of their lines."""
    return [it[:19].upper() for it in log.split("\n") if it[:1] not in ("", "#", "%", "<", "\r")]


def is_group(pi, slot):
    return slot[:4] == f"{pi:04X}" and "-" not in (slot[5], slot[10], slot[15])


def reaches(pi, late, log, received, origin):
    """Returns whether the log reaches a receiver so, if the slots that it got have these origins."""
    sent, came = slots(log), [it for it in origin if it is not None]
    each = (not is_group(pi, slot) if s is None else sent[s] == slot and s <= t <= s + late
            for t, (s, slot) in enumerate(zip(origin, slots(received), strict=True)))
    return all(each) and all(one < two for one, two in itertools.pairwise(came))


def after_row(word, spacing, slot, row, air):
    """Returns the state of the station after the row of a slot, for texts or for names."""
    may_set = air.started + spacing <= slot and (air.set is None or air.set[0] + 2 * spacing <= slot)
    if row[0] == "restart":
        return Air(air.number, slot, None)
    return Air(air.number + 1, air.started, (slot, row[1])) if row[0] == word and may_set else air


class Script:
    """The rows of a script, and what it has on air in each slot if the spacing is M + K."""

    def __init__(self, text, spacing):
        self.spacing, self.rows = spacing, list(csv.reader(text.splitlines()))
        self.air = {word: self.airs(word) for word in ("text", "name")}

    def airs(self, word):
        rows = enumerate(self.rows)
        states = itertools.accumulate(rows, lambda air, it: after_row(word, self.spacing, *it, air), initial=Air(0, 0, None))
        return list(states)[1:]

    def was_on_air(self, word, slot, shown):
        """Returns the numbers under which it was on air in one of the last M + K slots up to this one."""
        lately = self.air[word][max(0, slot + 1 - self.spacing):slot + 1]
        return {it.number for it in lately if it.set and (it.set[1].ljust(8) if word == "name" else it.set[1]) == shown}

    def went_with(self, word, slot, text, content):
        """Returns the numbers of the texts with these characters that a tag went with, up to this slot."""
        for row, air in zip(self.rows[:slot + 1], self.air["text"]):
            if row[0] == "tags" and air.set and air.set[1] == text and air.set[0] + self.spacing <= slot:
                numbers = [int(it) for it in row[1].split()]
                pair = numbers[2:5], numbers[5:8]
                class_, start, extra = pair[word == "tag2"]
                fits = all(kind == 0 or first + more < len(text) for kind, first, more in pair)
                piece = f'{CLASSES.get(class_, class_)} "{text[start:start + extra + 1]}"'
                if fits and class_ > 0 and content == piece:
                    yield air.number

    def unsafe(self, one, other, count):
        """Gives what two outputs display in one of so many slots, and is not safe: the slot, the part and the contents."""
        shown = {word: [displays(it, word, count) for it in (one, other)] for word in ("text", "name", "tag1", "tag2")}
        for slot in range(count):
            for word in ("text", "name"):
                values = [it[slot].strip('"') for it in shown[word] if it[slot].startswith('"')]
                numbers = [self.was_on_air(word, slot, it) for it in values]
                if not any(max(it, default=0) - min(it, default=0) <= 1 for it in itertools.product(*numbers)):
                    yield slot, word, values
            for word, side in itertools.product(("tag1", "tag2"), (0, 1)):
                text, content = shown["text"][side][slot].strip('"'), shown[word][side][slot]
                numbers = self.was_on_air("text", slot, text) & set(self.went_with(word, slot, text, content))
                if content != "none" and not numbers:
                    yield slot, word, content


def displays(output, word, count):
    """Returns what an output displays of a part in each of so many slots: the content of its newest line."""
    lines = (it.split(" ", 2) for it in output.splitlines())
    changes = {int(slot): content for slot, part, content in lines if part == word}
    return list(itertools.accumulate(range(count), lambda shown, slot: changes.get(slot, shown), initial="none"))[1:]
