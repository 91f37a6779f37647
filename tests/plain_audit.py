"""A plain slow audit: the rules of docs/FORMATS.md over whole lists and slot numbers.

The program keeps ages that stop at a limit, and which rules a text breaks. They share no code.
"""
RETURN = 0x0D
# control characters that a text may have: preferred line break, end of headline, soft hyphen
CONTROLS = (0x0A, 0x0B, 0x1F)
# the order of the faults of one slot
ORDER = ("Changed", "EarlyFlag", "NotOneText", "EarlyTag", "TagOutside")


def segment_of(group):
    """Returns service, flag, address and the four bytes of a group 2A or 10A, or None for another group."""
    second, third, fourth = (int(block, 16) for block in group[1:])
    service = {4: "text", 20: "name"}.get(second >> 11)
    if service is None:
        return None
    address = second & (0xF if service == "text" else 1)
    return service, second >> 4 & 1, address, third.to_bytes(2, "big") + fourth.to_bytes(2, "big")


def tag_ends_of(group):
    """Returns the ends of the tags of a group 11A, in characters, or None for another group."""
    second, third, fourth = (int(block, 16) for block in group[1:])
    if second >> 11 != 22:
        return None
    bits = (second & 0x1F) << 32 | third << 16 | fourth
    one = (bits >> 29 & 0x3F, bits >> 23 & 0x3F, bits >> 17 & 0x3F)
    two = (bits >> 11 & 0x3F, bits >> 5 & 0x3F, bits & 0x1F)
    return [start + extra + 1 for kind, start, extra in (one, two) if kind > 0]


def lengths_of(service, address, data):
    """Returns the lengths of the texts or names with this segment."""
    if service == "name":
        return {8} if all(byte >= 0x20 for byte in data) else set()
    head, found, tail = data.partition(bytes([RETURN]))
    if any(byte < 0x20 and byte not in CONTROLS for byte in head) or tail.strip(b" "):
        return set()
    end = 4 * address + len(head)
    return {end} if found else set(range(end, 65))


class Value:
    """A text or a name of a log: its flag, the first slot in which it can have started, the faults that it began with,
    and its segments and tags with their slots."""

    def __init__(self, flag, start, broken):
        self.flag, self.start, self.broken, self.segments, self.tags = flag, start, broken, [], []

    @property
    def opened(self):
        return self.segments[0][0]

    @property
    def last(self):
        return max(slot for slot, *_ in self.segments + self.tags)

    def has_other(self, address, data):
        """Returns whether the address was sent with other bytes."""
        return any(at == address and bytes_ != data for _, at, bytes_ in self.segments)

    def faults(self, service, spacing):
        """Returns the rules that the value breaks."""
        found, left = set(self.broken), {8} if service == "name" else set(range(65))
        for _, address, data in self.segments:
            fits = left & lengths_of(service, address, data)
            left = fits or left
            if not fits:
                found.add("NotOneText")
        if any(slot < self.start + spacing for slot, _ in self.tags):
            found.add("EarlyTag")
        if any(end > max(left) for _, ends in self.tags for end in ends):
            found.add("TagOutside")
        return found


class Audit:
    """The texts and names of a log, slot by slot, and the faults that each slot adds. If the station was on air before the
    log, M + K lost slots come first, and tags before the first text segment do not count."""

    def __init__(self, spacing, is_running=False):
        self.spacing, self.is_running, self.next = spacing, is_running, spacing if is_running else 0
        self.values, self.had = {"text": [], "name": []}, {"text": set(), "name": set()}

    def slot(self, group):
        """Takes the next slot: the blocks of its group, or None. Returns the faults that it adds, in their order."""
        slot, self.next = self.next, self.next + 1
        segment, ends = (segment_of(group), tag_ends_of(group)) if group else (None, None)
        service = segment[0] if segment else "text"
        values = self.values[service]
        if segment:
            self.take(service, slot, *segment[1:])
        elif ends is None or not values and self.is_running:
            return []
        elif values:
            values[-1].tags.append((slot, ends))
        now = values[-1].faults(service, self.spacing) if values else {"EarlyTag"}
        new, self.had[service] = now - self.had[service], now
        return [fault for fault in ORDER if fault in new]

    def take(self, service, slot, flag, address, data):
        """Takes a segment into the newest value, or into a new one."""
        values = self.values[service]
        newest = values[-1] if values else None
        joins = newest and flag == newest.flag and slot < newest.last + self.spacing
        is_changed = bool(joins) and newest.has_other(address, data)
        if not joins or is_changed:
            values.append(self.begun(values, slot, flag, is_changed))
            self.had[service] = set()
        values[-1].segments.append((slot, address, data))

    def begun(self, values, slot, flag, is_changed):
        """Returns the value that begins in the slot, after these values."""
        broken = {"Changed"} if is_changed else set()
        if not values:
            return Value(flag, 0, broken)
        ended = values[-1].last
        if flag == values[-1].flag and not is_changed:
            return Value(flag, ended + self.spacing, broken)
        start = max(ended + 1, values[-2].last + self.spacing if len(values) > 1 else 0)
        return Value(flag, start, broken) if start <= slot else Value(flag, ended + 1, broken | {"EarlyFlag"})


def all_faults(slots, spacing, is_running=False):
    """Returns the lines of `audit --all` for these slots of one programme: four blocks each, or None if nothing was sent.
    And how many texts and names they have."""
    audit = Audit(spacing, is_running)
    lines = [f"no {number} {fault}" for number, group in enumerate(slots) for fault in audit.slot(group)]
    return lines or [f"yes {len(slots)}"], {service: len(values) for service, values in audit.values.items()}


def audit(slots, spacing, is_running=False):
    """Returns the answer line of `audit` for these slots."""
    return f"{all_faults(slots, spacing, is_running)[0][0]}\n"


def is_dense(notes, slots, dwell):
    """Returns whether each broadcast of an encoder's log is without a gap. Then each segment except the first comes
    less than the dwell after a segment or a tag group of the broadcast, and the first tag group comes after a segment.

    The notes are the encoder's replies: slot and answer.
    """
    begins = {"text": set(), "name": set()}
    for slot, answer in notes:
        for service, slots_of in begins.items():
            if answer in (f"{service} ok", "restart"):
                slots_of.add(slot)
    marks = {"text": None, "name": None}
    pieces = {"text": False, "name": False}
    for slot, group in enumerate(slots):
        for service in marks:
            if slot in begins[service]:
                marks[service], pieces[service] = None, False
        if group is None:
            continue
        segment = segment_of(group)
        if segment is not None:
            service = segment[0]
            if pieces[service] and slot - marks[service] >= dwell:
                return False
            marks[service], pieces[service] = slot, True
        elif tag_ends_of(group) is not None:
            if not pieces["text"]:
                return False
            marks["text"] = slot
    return True
