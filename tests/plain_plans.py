"""A plain search for plans beside the audit: all plans of some short logs are tried, slot by slot."""
import collections

from tests import plain_audit

SLOTS, LOGS = 8, 2000
# what a service gets in a slot: a segment with its flag, or tags (no flag), and the values that have it, of four
Mark = collections.namedtuple("Mark", "flag values")
# the broadcast that goes on: `values` have all that was sent in it, and `marked` is the last slot with some of it
Broadcast = collections.namedtuple("Broadcast", "start end flag values marked")
# a plan so far: the broadcast that goes on, or None, and flag and end of the last two that ended
Plan = collections.namedtuple("Plan", "now ended")
Letter = collections.namedtuple("Letter", "line text name")
ALL = frozenset(range(4))


def text(flag, words, *values):
    """Returns the letter of a text segment, with the texts that have it."""
    return Letter(f"C201 {0x2140 | flag << 4:04X} {words}".split(), Mark(flag, frozenset(values)), None)


def name(flag, address, words, *values):
    """Returns the letter of a name segment, with the names that have it."""
    return Letter(f"C201 {0xA140 | flag << 4 | address:04X} {words}".split(), None, Mark(flag, frozenset(values)))


NOTHING = Letter(None, None, None)
# The texts are HI, YO, ABCD and one of 64 bytes that begins with ABCD. If any text has some of these segments and tags,
# one of the four has them. The names are `JAZZ FM ` and `NEWS FM `.
LETTERS = (
    NOTHING,
    Letter("F000 2140 4849 0D20".split(), None, None),
    text(0, "4849 0D20", 0), text(1, "4849 0D20", 0),
    text(0, "594F 0D20", 1), text(1, "594F 0D20", 1),
    text(0, "4142 4344", 2, 3), text(1, "4142 4344", 2, 3),
    Letter("C201 2141 0D20 2020".split(), Mark(0, frozenset([2])), None),
    text(0, "0D41 2020"),
    # tags that end at 2, and at 4 and 15
    Letter("C201 B148 2002 0000".split(), Mark(None, ALL), None),
    Letter("C201 B158 8006 08E7".split(), Mark(None, frozenset([3])), None),
    name(0, 0, "4A41 5A5A", 0), name(0, 1, "2046 4D20", 0, 1), name(0, 0, "4E45 5753", 1), name(1, 0, "4E45 5753", 1),
)


def may_begin(plan, dwell, slot, flag):
    """Returns whether a broadcast may begin in the slot: the dwell after the end of the one before the last, and also
    after the last one if both have the same flag."""
    *_, second, last = (None, None, *plan.ended)
    is_apart = last is None or last[0] != flag or slot >= last[1] + dwell
    return is_apart and (second is None or slot >= second[1] + dwell)


def followed(plan, dwell, slot):
    """Gives the plans that follow a plan in the slot. Its broadcast goes on, or it ends, and a broadcast of either flag
    may begin."""
    if plan.now is not None:
        yield plan._replace(now=plan.now._replace(end=slot))
        plan = Plan(None, (*plan.ended, (plan.now.flag, plan.now.end))[-2:])
    yield plan
    for flag in (0, 1):
        if may_begin(plan, dwell, slot, flag):
            yield plan._replace(now=Broadcast(slot, slot, flag, ALL, None))


def has(plan, dwell, slot, mark):
    """Returns the plan after the group that was sent in the slot, or None if the group is not of its broadcast or
    leaves a gap."""
    if mark is None:
        return plan
    now = plan.now
    if now is None or not now.values & mark.values:
        return None
    if mark.flag is None:
        is_right = now.marked is not None and slot >= now.start + dwell
    else:
        is_right = mark.flag == now.flag and (now.marked is None or slot < now.marked + dwell)
    return plan._replace(now=now._replace(values=now.values & mark.values, marked=slot)) if is_right else None


def first_without_a_plan(dwell, marks):
    """Returns the first slot up to which no plan is lawful and dense, or None if one plan is right for all slots."""
    plans = {Plan(None, ())}
    for slot, mark in enumerate(marks):
        plans = {has(after, dwell, slot, mark) for plan in plans for after in followed(plan, dwell, slot)} - {None}
        if not plans:
            return slot
    return None


def random_log(rng):
    """Returns a dwell and a short log of a few letters."""
    dwell, pool = rng.randrange(1, 5), rng.choices(LETTERS, k=3)
    return dwell, [NOTHING if rng.random() < 1 / 3 else rng.choice(pool) for _ in range(SLOTS)]


def lines_of(log):
    """Returns the log as the program reads it."""
    return "".join(" ".join(it.line or ["----"] * 4) + "\n" for it in log).encode()


def first_of_a_log(log, dwell):
    """Returns the first slot up to which no plan is lawful and dense, or None."""
    # a service without a group needs no broadcast
    sent = [marks for marks in ([it.text for it in log], [it.name for it in log]) if any(marks)]
    first = [first_without_a_plan(dwell, marks) for marks in sent]
    return min((it for it in first if it is not None), default=None)


def answer_by_the_rules(log, dwell):
    """Returns the answer of the plain audit, and the slot of its no or None."""
    answer = plain_audit.audit([it.line if it.line and it.line[0] == "C201" else None for it in log], dwell)
    return answer, int(answer.split()[1]) if answer.startswith("no") else None
