"""A plain slow search for a witness: it tries every burst of lost slots, with the receiver of plain_receiver.py."""
from tests.plain_receiver import LOST, Receiver, tags_in

ANNOUNCED = "C201 3156 0000 4BD7"


def pieces(text, pair):
    """Returns the class of each tag and its piece of the text."""
    return {(kind, text[start:start + extra + 1]) for kind, start, extra in tags_in(pair) if kind and start + extra < len(text)}


def views(slots, dwell):
    """Gives for each slot the things that are shown at its end, and these with the things that earlier pairs of tags of
    the run would have shown too. RadioText Plus is announced in the first slot of such a log or nowhere, and the
    announcement stays."""
    receiver = Receiver(dwell)
    for slot, line in enumerate(slots):
        receiver.hear(slot, line)
        values = {service: receiver.value(service, slot) for service in ("text", "name")}
        things = {it for it in values.items() if it[1] is not None}
        held = receiver.pairs(slot) if values["text"] is not None else []
        tags = [pieces(values["text"], pair) for pair in held]
        yield things.union(*tags[:1]), things.union(*tags)


def first_mix(slots, dwell):
    """Returns the first slot in which some receiver that lost a burst shows a mix, or None."""
    wide = [things for _, things in views(slots, dwell)]
    known = [set().union(*wide[:slot + dwell]) for slot in range(len(slots))]
    best = None
    for first in range(len(slots)):
        for last in range(first, len(slots)):
            received = slots[:first] + [LOST] * (last - first + 1) + slots[last + 1:]
            # a mix behind the best slot does not matter
            for slot, (things, _) in enumerate(views(received[:best], dwell)):
                if things - known[slot]:
                    best = slot
                    break
    return best
