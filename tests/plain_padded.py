"""Two plain slow checks of `audit --padded`, by its rule alone: a search for plans over short logs, and the reigns of a
log of any length. A text has the segments that were sent if some length fits all of their bytes: bytes of a text before
its end, a carriage return at its end if that is before 64, and anything behind it."""
import functools

from tests import plain_audit

CONTROLS = (0x0A, 0x0B, 0x1F)
RETURN = 0x0D


@functools.lru_cache(maxsize=None)
def lengths_of(parts):
    """Returns all lengths of texts that have these segments: pairs of an address and four bytes."""
    sent = {}
    for address, data in parts:
        for place, byte in enumerate(data, 4 * address):
            sent.setdefault(place, set()).add(byte)
    return [length for length in range(65) if fits(sent, length)]


def fits(sent, length):
    """Returns whether some text of this length has these bytes at their places."""
    for place, found in sent.items():
        if place < length and (len(found) > 1 or any(byte < 0x20 and byte not in CONTROLS for byte in found)):
            return False
        if place == length and found != {RETURN}:
            return False
    return True


def has_text(parts, end):
    """Returns whether some text has these segments, and reaches the end of the tags."""
    return max(lengths_of(frozenset(parts)), default=-1) >= end


def has_name(parts, _end):
    """Returns whether some name has these segments."""
    return (all(byte >= 0x20 for _, data in parts for byte in data)
            and len({address for address, _ in parts}) == len(set(parts)))


def mark_of(service, group):
    """Returns what a group is for a service: a flag and a segment, the greatest end of tags, or None."""
    if group is None:
        return None
    segment, ends = plain_audit.segment_of(group), plain_audit.tag_ends_of(group)
    if segment and segment[0] == service:
        return segment[1], (segment[2], segment[3])
    if ends is not None and service == "text":
        return max(ends, default=0)
    return None


# ---- a search for plans

def first_without_a_plan(spacing, service, slots):
    """Returns the first slot up to which no plan of the service is lawful and dense, or None. A plan is a broadcast that
    goes on or None, and flag and end of the last two that ended; a broadcast is its start, its end, its flag, its
    segments, the greatest end of its tags, and the last slot of these."""
    has = has_text if service == "text" else has_name
    plans = {(None, ())}
    for slot, group in enumerate(slots):
        mark = mark_of(service, group)
        plans = {taken(after, spacing, slot, mark, has) for plan in plans for after in followed(plan, spacing, slot)}
        plans.discard(None)
        if not plans:
            return slot
    return None


def followed(plan, spacing, slot):
    """Gives the plans that follow a plan in the slot: its broadcast goes on, or ends, and one of either flag begins."""
    now, ended = plan
    if now is not None:
        yield (now[0], slot, *now[2:]), ended
        ended = (*ended, (now[2], now[1]))[-2:]
    yield None, ended
    for flag in (0, 1):
        apart = not ended or ended[-1][0] != flag or slot >= ended[-1][1] + spacing
        if apart and (len(ended) < 2 or slot >= ended[-2][1] + spacing):
            yield (slot, slot, flag, frozenset(), 0, None), ended


def taken(plan, spacing, slot, mark, has):
    """Returns the plan after what was sent in the slot, or None if it is not of its broadcast or leaves a gap."""
    now, ended = plan
    if mark is None:
        return plan
    if now is None:
        return None
    start, end, flag, parts, tags, marked = now
    if isinstance(mark, tuple):
        if mark[0] != flag or marked is not None and slot >= marked + spacing:
            return None
        parts = parts | {mark[1]}
    else:
        if marked is None or slot < start + spacing:
            return None
        tags = max(tags, mark)
    return ((start, end, flag, parts, tags, slot), ended) if has(parts, tags) else None


def answer_by_plans(slots, spacing):
    """Returns `yes` or the first slot without plans of both services. A service without a group needs no plan."""
    first = [first_without_a_plan(spacing, service, slots) for service in ("text", "name")
             if any(mark_of(service, group) is not None for group in slots)]
    return min((slot for slot in first if slot is not None), default=None)


# ---- the reigns

def answer_by_reigns(slots, spacing, is_running=False):
    """Returns the answer line of `audit --padded`."""
    lost = spacing if is_running else 0
    reigns = {"text": [], "name": []}
    for number, group in enumerate(slots):
        for service, known in reigns.items():
            fault = fault_of(known, service, mark_of(service, group), number + lost, spacing, is_running)
            if fault:
                return f"no {number} {fault}\n"
    return f"yes {len(slots)}\n"


def fault_of(known, service, mark, slot, spacing, is_running):
    """Takes a mark of the slot into the reigns. Returns its fault, or None."""
    has = has_text if service == "text" else has_name
    if mark is None:
        return None
    if not isinstance(mark, tuple):
        if not known:
            return None if is_running else "EarlyTag"
        now = known[-1]
        now["last"], now["tags"] = slot, max(now["tags"], mark)
        if slot < now["start"] + spacing:
            return "EarlyTag"
        return None if has(now["parts"], now["tags"]) else "TagOutside"
    flag, part = mark
    if known and known[-1]["flag"] == flag and slot < known[-1]["last"] + spacing:
        now = known[-1]
        other = any(address == part[0] and data != part[1] for address, data in now["parts"])
        now["last"], now["parts"] = slot, now["parts"] | {part}
        if not has(now["parts"], 0):
            return "Changed" if other else "NotOneText"
        return None if has(now["parts"], now["tags"]) else "TagOutside"
    start = 0
    if known and known[-1]["flag"] == flag:
        start = known[-1]["last"] + spacing
    elif known:
        start = max(known[-1]["last"] + 1, known[-2]["last"] + spacing if len(known) > 1 else 0)
    if start > slot:
        return "EarlyFlag"
    known.append({"flag": flag, "start": start, "last": slot, "parts": frozenset([part]), "tags": 0})
    return None if has(known[-1]["parts"], 0) else "NotOneText"


# ---- encoders that pad

def rest_of(body, size, fill):
    """Returns the body, filled up to so many bytes."""
    return body + (fill * size)[:max(0, size - len(body))]


# what an encoder sends for a text, and the bytes that its buffer had before
WAYS = {
    "return, spaces in its segment": lambda text, old, rng: rest_of(text + b"\r", -(-(len(text) + 1) // 4) * 4, b" "),
    "return, spaces up to 64": lambda text, old, rng: rest_of(text + b"\r", 64, b" "),
    "return, zeros up to 64": lambda text, old, rng: rest_of(text + b"\r", 64, b"\0"),
    "returns up to 64": lambda text, old, rng: rest_of(text + b"\r", 64, b"\r"),
    "return, the text before it up to 64": lambda text, old, rng: (text + b"\r" + old[len(text) + 1:])[:64],
    "return, other bytes in each round": lambda text, old, rng: rest_of(text + b"\r", 64, b"") + bytes(
        rng.randrange(256) for _ in range(63 - len(text))),
    "return and line feed, spaces up to 64": lambda text, old, rng: rest_of(text + b"\r\n", 64, b" ")[:64],
    "return, 0xFF up to 64": lambda text, old, rng: rest_of(text + b"\r", 64, b"\xff"),
    "spaces up to 32, then a return, then spaces": lambda text, old, rng: rest_of(
        rest_of(text[:32], 32, b" ") + b"\r", 64, b" "),
    "spaces up to 64, no return": lambda text, old, rng: rest_of(text, 64, b" "),
    "zeros up to a multiple of four, no return": lambda text, old, rng: rest_of(text, -(-len(text) // 4) * 4, b"\0"),
    "zeros up to 64, no return": lambda text, old, rng: rest_of(text, 64, b"\0"),
    "return, zeros in its segment": lambda text, old, rng: rest_of(
        text + b"\r", -(-(len(text) + 1) // 4) * 4, b"\0"),
    "two returns, spaces up to 64": lambda text, old, rng: rest_of(text + b"\r\r", 64, b" ")[:64],
}
ORDERS = {"rising": lambda rng, count: list(range(count)), "falling": lambda rng, count: list(range(count))[::-1],
          "by chance": lambda rng, count: rng.sample(range(count), count)}


def segment(flag, address, data):
    """Returns the blocks of a text segment."""
    words = data.hex().upper()
    return f"C201 {0x2140 | flag << 4 | address:04X} {words[:4]} {words[4:]}".split()


def station(rng, way, order, texts, flips=True, rounds=2, gap=0):
    """Returns the slots of an encoder that pads in this way. It sends each text so many rounds, in this order."""
    slots, old = [], b" " * 64
    for number, text in enumerate(texts):
        for turn in range(rounds):
            body = WAYS[way](text, old, rng)
            count = len(body) // 4
            for address in ORDERS[order](rng, count):
                slots.append(segment(number % 2 if flips else 0, address, body[4 * address:4 * address + 4]))
        old = rest_of(WAYS[way](text, old, rng), 64, b" ")[:64]
        slots += [None] * gap
    return slots


def lines_of(slots):
    """Returns the log as the program reads it."""
    return "".join(" ".join(group or ["----"] * 4) + "\n" for group in slots).encode()
