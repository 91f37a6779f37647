"""Scripts by chance, and logs with lost slots: what the page shows in each slot, tags too, beside plain receivers
and the diary of what was on air, which share no code with the program."""
import random

from tests import outputs
from tests.page_support import NOTHING, ChromiumCase, FirefoxCase, call, open_script, to_tab
from tests.plain_radios import Radio
from tests.plain_witness import views as plain_views
from tests.plain_worlds import CLASSES, SLOTS, Diary, accepted_in, encoded, random_rows, script
from tests.support import ran
from tests.test_flag_alone import heard, on_air, word_of
from tests.test_worlds import receptions_of

SEED, SCRIPTS, LOGS, RECEIVERS, BURSTS = 20261128, 60, 60, 2, 3
PARTS, TAGS = ("text", "name", "tag1", "tag2"), ("tag1", "tag2")
# how many slots and parts are red, old and calm, and show tags, at least
LEAST = {"mix": 20, "old": 50, "replaced": 5, "on air": 1000, "tags": 300}


def printed(things):
    """Returns what a plain receiver shows: a text, a name, and the pieces of tags as the program prints them."""
    kinds = {"text": "text", "name": "name"}
    return {(kinds.get(kind, "tag"), value.decode() if kind in kinds else f'{CLASSES[kind]} "{value.decode()}"')
            for kind, value in things if value is not None}


def things(view):
    """Returns the same of a display of the page or of a radio."""
    return {("tag" if part in TAGS else part, value) for part, value in view.items() if value is not None}


def lives(receptions):
    """Returns the slots of a receiver between its restarts, each from its first to before its last one."""
    starts = [0, *(slot + 1 for slot, it in enumerate(receptions) if it == "R")]
    return list(zip(starts, [*(it - 1 for it in starts[1:]), len(receptions)]))


def with_dwell(lines, receptions, dwell):
    """Returns what a plain receiver with the dwell shows in each slot. A restart begins anew."""
    shown = [set() for _ in lines]
    for first, last in lives(receptions):
        for slot, (now, _) in enumerate(plain_views(lines[first:last], dwell), first):
            shown[slot] = printed(now)
    return shown


def with_flag_alone(lines, receptions):
    """Returns what a plain radio with the flag bit alone shows in each slot, part by part."""
    radio, shown = Radio(), []
    for line, reception in zip(lines, receptions):
        if reception == "R":
            radio = Radio()
        elif line != NOTHING:
            radio.hear(line)
        shown.append(radio.view())
    return shown


def values(display):
    """Returns the values of a display of the page in each slot."""
    return [{part: it[part] and it[part][0] for part in PARTS} for it in display]


class Worlds:
    def test_scripts_by_chance_are_shown_as_plain_receivers_show_them(self):
        b, counts = self.b, dict.fromkeys(LEAST, 0)
        for number in range(SCRIPTS):
            rng = random.Random(f"{SEED} {number}")
            dwell, late = rng.randrange(2, 7), rng.choice((0, 0, 2))
            each = [list(receptions_of(rng, late, 0, SLOTS)) for _ in range(RECEIVERS)]
            rows = [row._replace(receptions="".join(it)) for row, it in zip(random_rows(rng), zip(*each))]
            given, name = script(rows), f"script {number}, M {dwell}, K {late}"
            open_script(b, given.decode(), m=dwell, k=late)
            words = ["sim", "--pi", "C201", "--pty", "10", "--m", str(dwell), "--k", str(late)]
            replies, groups, _, _ = outputs.parts_of(ran(words, given)[1], False)
            accepted = accepted_in(replies)
            airs = on_air(rows, accepted, Diary(rows, accepted))
            air = values(call(b, "probe.displays", SLOTS, "script", "air"))
            self.check(f"{name}: on air", [things(it) for it in air], [things(it) for it in airs], given)
            for receiver, receptions in enumerate(each):
                lines = [NOTHING if it == "R" else heard(it, slot, groups) for slot, it in enumerate(receptions)]
                shown = values(call(b, "probe.displays", SLOTS, "script", "views", receiver))
                self.check(f"{name}: receiver {receiver}", [things(it) for it in shown],
                           with_dwell(lines, receptions, dwell), given)
                radio = call(b, "probe.displays", SLOTS, "script", "alone", receiver)
                plain = with_flag_alone(lines, receptions)
                self.check(f"{name}: radio {receiver}", [things(it) for it in values(radio)],
                           [things(it) for it in plain], given)
                told = [[it[part] and it[part][1] for part in PARTS] for it in radio]
                word = lambda part, value, slot: value and word_of(part, value, airs[:slot + 1], dwell + late)
                wanted = [[word(part, view.get(part), slot) for part in PARTS] for slot, view in enumerate(plain)]
                self.check(f"{name}: words of radio {receiver}", told, wanted, given)
                for it in (word for words in wanted for word in words if word):
                    counts[it] += 1
                counts["tags"] += sum(part in view for view in plain for part in TAGS)
        rare = {it: counts[it] for it, least in LEAST.items() if counts[it] <= least}
        self.check_all("each word is met", rare, {})

    def test_logs_with_lost_slots_are_shown_as_plain_receivers_show_them(self):
        """Red is what no plain receiver without losses shows up to M - 1 slots later."""
        b, red = self.b, 0
        for number in range(LOGS):
            rng = random.Random(f"{SEED} log {number}")
            dwell, (slots, _) = rng.randrange(2, 9), encoded(rng, 0)
            text = "".join(f"{it}\n" for it in slots)
            call(b, "probe.open", "log", text, {"pi": "C201", "m": dwell, "k": 0})
            to_tab(b, "log")
            lost = set()
            for _ in range(BURSTS):
                first, last = sorted(rng.sample(range(len(slots)), 2))
                last = min(last, first + 14)
                before = lost
                lost = lost - {*range(first, last + 1)} if first in lost else lost | {*range(first, last + 1)}
                call(b, "probe.lose", *(lost ^ before))
            name = f"log {number}, M {dwell}"
            self.check(f"{name}: the lost slots", sorted(call(b, "probe.lost")), sorted(lost), text.encode())
            heard_slots = [NOTHING if slot in lost else it for slot, it in enumerate(slots)]
            whole = [printed(now) | things(radio) for (now, _), radio in zip(plain_views(slots, dwell),
                                                                             with_flag_alone(slots, ["G"] * len(slots)))]
            known = [set().union(*whole[:slot + dwell]) for slot in range(len(slots))]
            for which, plain in (("view", with_dwell(heard_slots, ["G"] * len(slots), dwell)),
                                 ("alone", [things(it) for it in with_flag_alone(heard_slots, ["G"] * len(slots))])):
                shown = call(b, "probe.displays", len(slots), "log", which)
                self.check(f"{name}: {which}", [things(it) for it in values(shown)], plain, text.encode())
                is_mix = lambda it, part: it[part] and it[part][1] == "mix"
                mixes = [things({part: it[part][0] for part in PARTS if is_mix(it, part)}) for it in shown]
                wanted = [now - known[slot] for slot, now in enumerate(plain)] if lost else [set() for _ in plain]
                self.check(f"{name}: red of {which}", mixes, wanted, text.encode())
                red += sum(map(len, wanted))
        self.check_all("some are red", red > 50, True)


class Chromium(Worlds, ChromiumCase):
    pass


class Firefox(Worlds, FirefoxCase):
    pass
