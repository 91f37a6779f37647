"""A plain receiver. It goes by the definitions over all that it heard: the run is the longest last part of the segments with
one flag and gaps below the dwell. It keeps no other state, and shares no code with the program.
"""
import collections
import math

LOST = "---- ---- ---- ----"
# `service` is "text" or "name"
Segment = collections.namedtuple("Segment", "service flag address body")
# by their numbers, the groups with segments, and the bits of the address
SERVICES = {2: ("text", 0x0F), 10: ("name", 0x01)}
ANNOUNCEMENT, TAGS = 3, 11


def group_of(line):
    """Returns the number of the group of a line, the five low bits of its second block, and its last four bytes. No line here
    has a group of version B."""
    second = int(line[5:9], 16)
    return second >> 12, second & 0x1F, bytes.fromhex(line[10:])


def segment_of(line):
    """Returns the segment of a line, or None."""
    number, low, body = group_of(line) if line != LOST else (None, None, None)
    if number not in SERVICES:
        return None
    service, addresses = SERVICES[number]
    return Segment(service, low >> 4, low & addresses, body)


def counting(segments, window):
    """Returns what came in each slot, with None for each segment that does not count. With a window one counts if the last one
    at its address was the same, and came less than the window before."""
    last, found = {}, []
    for slot, segment in enumerate(segments):
        place = segment and (segment.service, segment.address)
        before, came = last.get(place, (None, slot))
        found.append(segment if not window or segment == before and slot - came < window else None)
        last[place] = segment, slot
    return found


def run_of(heard, dwell, slot):
    """Returns the segments of the run at the end of the slot with their slots, the newest first."""
    run = []
    for at, segment in reversed(heard):
        if (run[-1][0] if run else slot) - at >= dwell or run and segment.flag != run[-1][1].flag:
            break
        run.append((at, segment))
    return run


def value_of(run):
    """Returns the text or the name that the run completes, or None."""
    cells = {}
    for _, segment in run:
        cells.setdefault(segment.address, segment.body)
    if run and run[0][1].service == "name":
        return cells[0] + cells[1] if len(cells) == 2 else None
    places = {4 * address + at: byte for address, body in cells.items() for at, byte in enumerate(body)}
    end = min((place for place, byte in places.items() if byte == 0x0D), default=64)
    return bytes(places[at] for at in range(end)) if all(at in places for at in range(end)) else None


class Receiver:
    """What a receiver with this dwell heard. Without one it never forgets."""

    def __init__(self, dwell=math.inf):
        self.dwell, self.heard, self.tags, self.knows_tags = dwell, {"text": [], "name": []}, [], False

    def hear(self, slot, line):
        """Takes the line of a slot."""
        if line == LOST:
            return
        number, low, body = group_of(line)
        segment = segment_of(line)
        if segment:
            self.heard[segment.service].append((slot, segment))
        elif number == ANNOUNCEMENT:
            self.knows_tags = True
        elif number == TAGS and self.knows_tags and self.run("text", slot):
            self.tags.append((slot, low << 32 | int.from_bytes(body, "big")))

    def run(self, service, slot):
        """Returns the run of a service at the end of a slot."""
        return run_of(self.heard[service], self.dwell, slot)

    def value(self, service, slot):
        """Returns the text or the name that is shown at the end of a slot, or None."""
        return value_of(self.run(service, slot))

    def pairs(self, slot):
        """Returns the bits of the pairs of tags that came after the first segment of the run of texts, the newest first."""
        run = self.run("text", slot)
        return [bits for at, bits in reversed(self.tags) if run and at > run[-1][0]]


def tags_in(pair):
    """Returns the two tags of a pair: each a class, a start and a length less one."""
    return (pair >> 29 & 63, pair >> 23 & 63, pair >> 17 & 63), (pair >> 11 & 63, pair >> 5 & 63, pair & 31)
