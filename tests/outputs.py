"""What `sim` and `encode` print, taken apart."""
import collections
import re


def parts_of(output, is_encode):
    """Returns the replies with their slots, the groups by their slots, the changes of each receiver of `sim`, and how
    many slots `encode` printed."""
    replies, groups, views, slot = [], {}, collections.defaultdict(list), 0
    for text in output.decode().splitlines():
        if is_encode and text[0] != "#":
            if text[0] != "-":
                groups[slot] = text
            slot += 1
            continue
        number, what, rest = (text.removeprefix("# ") + " ").split(" ", 2)
        if what == "sent":
            groups[int(number)] = rest[:-1]
        elif re.fullmatch("r[0-7]", what):
            views[int(what[1:])].append(f"{number} {rest[:-1]}")
        else:
            replies.append((int(number), what, rest))
    return replies, groups, views, slot
