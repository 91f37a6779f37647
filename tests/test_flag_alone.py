"""`sim --flag-alone` by chance: what each radio shows beside `decode --m 65535`, and whether that is on air, replaced, old
or a mix beside the diary of plain_worlds.py."""
import random
import re
from collections import Counter

from tests import outputs
from tests.plain_worlds import (DWELL, LOST, SLOTS, Diary, accepted_in, decoded, pieces_by_part, random_rows, script,
                                shown)
from tests.support import ProgramCase, ran
from tests.test_worlds import receptions_of

WORLDS, RECEIVERS, LONGEST_DWELL = 120, 2, 65535
PARTS, TAGS = ("text", "name", "tag1", "tag2"), ("tag1", "tag2")
WORDS = ("on air", "replaced", "old", "mix")
COMPARED = re.compile(rf"(\d+) (?:air (.*)|r(\d) (\w+) ({'|'.join(WORDS)}))")


def taken_apart(output):
    """Returns the output of `sim` without the lines that compare, the changes on air, and for each receiver and part
    the words with their slots."""
    rest, air, told = [], [], {}
    for line in output.decode().splitlines():
        found = COMPARED.fullmatch(line)
        if not found:
            rest.append(line)
        elif found[2]:
            air.append(f"{found[1]} {found[2]}")
        else:
            told.setdefault((int(found[3]), found[4]), []).append((int(found[1]), found[5]))
    return "".join(f"{line}\n" for line in rest).encode(), air, told


def on_air(rows, accepted, diary):
    """Returns what was on air at the end of each slot, part by part."""
    tags, found = {}, []
    for slot, row in enumerate(rows):
        now = {service: value for service, (_, value) in diary.slots[slot].items()}
        if row.command == "restart" or (row.command == "text" and slot in accepted):
            tags = {}
        elif row.command == "tags" and slot in accepted:
            tags = tags_of(row.argument, now["text"])
        found.append({**now, **tags})
    return found


def tags_of(argument, text):
    """Returns the pieces of both tags of an argument, by part."""
    numbers = [int(it) for it in argument.split()][2:]
    return pieces_by_part((numbers[:3], numbers[3:]), text)


def views_of(rows, groups, receiver):
    """Returns what `decode` shows of the groups that a receiver got, at the end of each slot. A restart begins anew."""
    views, life = [], []
    for slot, row in enumerate(rows):
        reception = re.findall(r"[A-Z][0-9A-F]*", row.receptions)[receiver]
        if reception == "R":
            views += decoded(LONGEST_DWELL, life) + [{}]
            life = []
        else:
            life.append(heard(reception, slot, groups))
    return views + decoded(LONGEST_DWELL, life)


def heard(reception, slot, groups):
    """Returns the line of a log for what a receiver got in a slot."""
    if reception[0] == "W":
        return " ".join(["C201", reception[1:5], reception[5:9], reception[9:]])
    back = int(reception[1:] or 0) if reception[0] == "G" else slot + 1
    return groups.get(slot - back, LOST)


def radio_script(slots, commands, got):
    """Returns a script of so many free slots with these commands, and a radio that gets the groups of these slots."""
    return "".join(f"{commands.get(slot, '-,')},1,{'G' if slot in got else 'L'}\n" for slot in range(slots)).encode()


def standing(told, slots):
    """Returns for each slot the word that stands for a part. A line comes only if the word changes."""
    changes, word, found = dict(told), "on air", []
    for slot in range(slots):
        if changes.get(slot) == word:
            found.append("told twice")
        else:
            word = changes.get(slot, word)
            found.append(word)
    return found


def word_of(part, value, airs, spacing):
    """Returns the word for what a receiver shows of a part, by what was on air in each slot so far."""
    def was_on_air(slots):
        return any(air.get(part) == value for air in slots)
    first = max(0, len(airs) - spacing)
    if value is None or was_on_air(airs[first:]):
        return "on air"
    # the texts of the last slots may have been on air before
    while first > 0 and airs[first - 1].get("text") == airs[first].get("text"):
        first -= 1
    if part in TAGS and was_on_air(airs[first:]):
        return "replaced"
    return "old" if was_on_air(airs) else "mix"


class FlagAlone(ProgramCase):
    def play(self, seed, dwell, late, window):
        """Plays a world, and compares it. Counts the slots of a part and a receiver by their word."""
        rng = random.Random(seed)
        receptions = zip(*(receptions_of(rng, late, window, SLOTS) for _ in range(RECEIVERS)))
        rows = [row._replace(receptions="".join(it)) for row, it in zip(random_rows(rng), receptions)]
        confirm = ["--confirm", str(window)] if window else []
        arguments = ["sim", "--pi", "C201", "--m", str(dwell), "--k", str(late), *confirm]
        name, given = f"seed {seed}, M {dwell}, K {late}, W {window}", script(rows)
        (status, output), plain = ran([*arguments, "--flag-alone"], given), ran(arguments, given)[1]
        rest, air, words = taken_apart(output)
        replies, groups, changes, _ = outputs.parts_of(rest, False)
        of_station = outputs.parts_of(plain, False)[:2]
        self.check(f"{name}: the station", (status, (replies, groups)), (0, of_station), given)
        accepted = accepted_in(replies)
        airs = on_air(rows, accepted, Diary(rows, accepted))
        told = [{part: view[part] for part in PARTS if part in view} for view in shown(air, SLOTS)]
        self.check(f"{name}: on air", told, airs, given)
        spacing = dwell + late + max(0, window - 1)
        return sum((self.compare(f"{name}, receiver {receiver}", views_of(rows, groups, receiver),
                                 shown(changes[receiver], SLOTS), airs,
                                 {part: words.get((receiver, part), []) for part in PARTS}, spacing, given)
                    for receiver in range(RECEIVERS)), Counter())

    def compare(self, name, wanted, views, airs, words, spacing, given):
        """Compares what one receiver shows, and the words for it."""
        self.check(f"{name}: shows", views, wanted, given)
        counts = Counter()
        for part in PARTS:
            right = [word_of(part, view.get(part), airs[:slot + 1], spacing) for slot, view in enumerate(views)]
            self.check(f"{name}: {part}", standing(words[part], SLOTS), right, given)
            counts.update((part in TAGS, word) for word in right)
        return counts

    def test_words_by_hand(self):
        """A tag that the station replaced before its text was complete, also after its text went. A text that is completed
        late. Item bits are not compared."""
        title, artist, other = "tags,0 1 1 0 1 0 0 0", "tags,1 0 4 4 3 0 0 0", "tags,1 0 0 0 0 0 0 0"
        tags = {4: "text,ABCDEFGH", 10: title, 14: artist}
        cases = (
            ("a replaced tag", 4, radio_script(30, tags, {0, 1, 2, 3, 4, 9, 11, 24, 26}), {"tag1": [(26, "replaced")]}),
            ("its text goes", 4, radio_script(40, {**tags, 28: "text,OTHER"}, {0, 1, 2, 3, 4, 9, 11, 24, 26}),
             {"tag1": [(26, "replaced"), (31, "old")], "text": [(31, "old")]}),
            ("an old text", 2, radio_script(16, {2: "text,ABCDEFG", 6: "text,OTHER", 10: "text,XXXXEFG"}, {0, 1, 2, 12}),
             {"text": [(12, "old")]}),
            ("a mix", 2, radio_script(16, {2: "text,ABCDEFG", 6: "text,OTHER", 10: "text,XXXXHIJ"}, {0, 1, 2, 12}),
             {"text": [(12, "mix")]}),
            ("item bits", 4, radio_script(30, {4: "text,HI", 10: "tags,0 1 0 0 0 0 0 0", 14: other}, set(range(14))), {}),
        )
        for name, dwell, given, wanted in cases:
            status, output = ran(["sim", "--pi", "C201", "--m", str(dwell), "--flag-alone"], given)
            words = {part: told for (_, part), told in taken_apart(output)[2].items()}
            self.check(name, (status, words), (0, wanted), given)

    def test_radios_and_what_is_on_air(self):
        """Groups are lost, late and wrong, and the station and the radios restart."""
        counts = Counter()
        for _, seed in self.cases(range(WORLDS)):
            window = seed % 3 and 2 + seed % 9
            counts += self.play(seed, DWELL + seed % 3, seed % 4, window)
        kinds = {(is_tag, word) for is_tag in (False, True) for word in WORDS} - {(False, "replaced")}
        self.check_all("each word occurs", {kind for kind in kinds if counts[kind] < 20}, set())
