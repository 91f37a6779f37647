"""Groups, logs, and groups with times of arrival."""
from __future__ import annotations

import ctypes
import functools
import operator
import re
from typing import Iterable, Iterator, List, Optional, Sequence, SupportsIndex, Tuple, Union

from . import _library as c

Integer = SupportsIndex
"""An int, or a number of another type that is one, as of NumPy."""
Group = Tuple[int, int, int, int]
"""The four blocks of a group, 0 to 0xFFFF each, without their check bits."""
_BLOCK = "([0-9A-Fa-f]{4}|----)"
_WORD = re.compile(_BLOCK)
_LINE = re.compile(rf"{_BLOCK} {_BLOCK} {_BLOCK} {_BLOCK}(?: |\Z)")
_DATED = re.compile(r"[ \t]*\[?@?\d{4}[/-]")
_MOST = 2 ** 64 - 1


def in_range(what: str, number: Integer, least: int, most: int) -> int:
    """Returns the number as an int. ctypes would cut a larger one silently."""
    try:
        it = operator.index(number)
    except TypeError:
        raise TypeError(f"{what} is an int and not {type(number).__name__}") from None
    if not least <= it <= most:
        raise ValueError(f"{what} is {it} and not from {least} to {most}")
    return it


def slot_time(slots: int = 1) -> float:
    """Returns how long so many slots take, in seconds, as `rdsrt_slot_time` of the C library says."""
    return float(c.library().rdsrt_slot_time(in_range("slots", slots, 0, 0xFFFFFFFF)) / 1e6)


class MalformedLine(ValueError):
    """Line `line` of a log is malformed. Lines count from 1. `why` is the cause."""

    def __init__(self, line: int, why: str):
        super().__init__(f"line {line} is malformed: {why}; a log line looks like C201 2140 4849 0D20")
        self.line, self.why = line, why

    def __reduce__(self) -> Tuple[type, Tuple[int, str]]:
        return type(self), (self.line, self.why)


def _cause(line: str) -> str:
    """Returns why a line is malformed, in the words of the program: its first mistake from the left."""
    if line[0] == "{":
        return "it looks like JSON"
    if "," in line.partition(" ")[0]:
        return "it looks like a row of a script, which encode and sim read"
    if " " not in line:
        return "it has no space"
    for block, place in enumerate(range(0, 20, 5), 1):
        if len(line) < place:
            return f"it ends after block {block - 1}"
        word = line[place:].partition(" ")[0]
        if len(word) != 4:
            return f"block {block} has {len(word)} characters, expected 4"
        if not _WORD.fullmatch(word):
            return f"block {block} has a character that is not a hexadecimal digit"
    raise AssertionError(line)


def _read(lines: Iterable[Union[str, bytes]], first: int) -> Iterator[Tuple[Optional[Group], str]]:
    """Yields the slots of a log, each with what follows its blocks."""
    if isinstance(lines, (str, bytes)):
        raise TypeError(f"the lines of a log are an open file or a list and not {type(lines).__name__}")
    for number, line in enumerate(lines, first):
        if not isinstance(line, (str, bytes, bytearray)):
            raise TypeError(f"a line of a log is a str or bytes and not {type(line).__name__}")
        # each byte of what follows a group is a character of Latin-1
        text = line if isinstance(line, str) else line.decode("latin-1")
        text = text[:-1] if text.endswith("\n") else text
        text = text[:-1] if text.endswith("\r") else text
        if not text or text[0] in "<#%":
            continue
        found = _LINE.match(text)
        if not found:
            raise MalformedLine(number, _cause(text))
        one, two, three, four = found.groups()
        lost = "----" in (one, two, three, four)
        yield None if lost else (int(one, 16), int(two, 16), int(three, 16), int(four, 16)), text[found.end():]


def read_log(lines: Iterable[Union[str, bytes]], first: int = 1) -> Iterator[Optional[Group]]:
    """Yields the slots of a log (FORMATS.md): a group, or None if a block of it is lost. Raises MalformedLine.

    `lines` is an open file or a list, and `first` the number of its first line. Open the file with "rb", because Python
    ends a line of a text file at a lone carriage return too."""
    return (group for group, _ in _read(lines, first))


def _time_in(text: str) -> Optional[int]:
    """Returns the time that a text begins with, in microseconds as `rdsrt_time_in` counts them."""
    own, time = text.encode("latin-1", "replace"), c.u64()
    code = c.library().rdsrt_time_in(own, len(own), ctypes.byref(time))
    return int(time.value) if code == c.OK else None


@functools.lru_cache(maxsize=None)
def _year_1970() -> int:
    """Returns the time at which the year 1970 begins."""
    return _time_in("1970-01-01T00:00:00Z") or 0


def read_timed(lines: Iterable[Union[str, bytes]], first: int = 1) -> Iterator[Tuple[float, Optional[Group]]]:
    """Yields time and group of each line of a log that has a time (FORMATS.md): RDS Spy's, ISO 8601, a time of day,
    seconds or milliseconds. The time is in seconds: that of a date since the beginning of 1970, that of a time of day
    since midnight. The group is None if a block of it is lost. Raises MalformedLine.

    `slots` and `Receiver.watch_timed` take such pairs. `rdsrt_time_in` of the C library reads the times."""
    for group, after in _read(lines, first):
        time = _time_in(after)
        if time is not None:
            yield (time - (_year_1970() if _DATED.match(after) else 0)) / 1e6, group


def blocks_of(group: Sequence[Integer]) -> List[int]:
    """Returns the four blocks of a group. Raises TypeError or ValueError if it is not a group."""
    if isinstance(group, (str, bytes, bytearray, memoryview, dict)) or not hasattr(group, "__getitem__"):
        raise TypeError(f"a group is a tuple of four numbers and not {type(group).__name__}")
    count, blocks = len(group), []
    if count == 4:
        blocks = [in_range("a block", it, 0, 0xFFFF) for it in group]
        # a class may say another length than it has
        count = len(blocks)
    if count != 4:
        raise ValueError(f"a group has 4 blocks and not {count}")
    return blocks


def format_group(group: Optional[Sequence[Integer]]) -> str:
    """Returns the line of a log for this group, or for None the line of a lost slot. The line has no line end."""
    return "---- ---- ---- ----" if group is None else " ".join(f"{it:04X}" for it in blocks_of(group))


def _microseconds(seconds: float) -> int:
    try:
        return round(seconds * 1e6)
    except (OverflowError, ValueError):
        raise ValueError(f"a time is {seconds!r} and not a number of seconds") from None


def slots(timed: Iterable[Tuple[float, Optional[Group]]], grain: float = 0.02,
          dwell: int = c.DEFAULT_DWELL) -> Iterator[Optional[Group]]:
    """Yields the slots of groups with times of arrival: each group, and before it None for each slot without a group.

    `timed` has pairs of a time in seconds and a group. A pair of a time and None says that no group came up to this
    time: it brings the lost slots earlier and changes none. Give such a pair every second or so while no group comes.

    `rdsrt_lost_slots` of the C library counts the lost slots. `grain` is how far the times can be off, in seconds: a
    group may come that much earlier than a time without a group before it. If a time is earlier than that, earlier than
    the last group, or more than an hour later than it, `dwell` lost slots come: after them a receiver with this dwell
    has dropped everything. If its view keeps texts, give its `dwell` and `keep` together. They may hide a fault from an `Audit`: give the slots after them to a new one."""
    return (group for _, group in timed_slots(timed, grain, dwell))


def timed_slots(timed: Iterable[Tuple[float, Optional[Group]]], grain: float = 0.02,
                dwell: int = c.DEFAULT_DWELL) -> Iterator[Tuple[float, Optional[Group]]]:
    """Yields the same slots as `slots`, each with its time in seconds. A lost slot has the time of the last group and a
    slot more for each lost one since."""
    in_range("dwell", dwell, 1, 2 * 0xFFFF)
    if not 0 <= grain < slot_time():
        raise ValueError(f"grain is {grain!r} and not from 0 to less than {slot_time():.4f}")
    fine = round(grain * 1e6)

    def lost_between(earlier: int, later: int) -> Optional[int]:
        # the library has no times below 0
        apart = later - earlier
        count = c.library().rdsrt_lost_slots(0, min(apart, _MOST), fine) if apart >= 0 else c.UNKNOWN
        return None if count == c.UNKNOWN else int(count)

    last: Optional[int] = None          # the time of the last group, from which slots count
    latest = lost = 0                   # the latest time, and the lost slots since the last group
    for seconds, group in timed:
        time = _microseconds(seconds)
        reached = max(time, latest)
        if last is None:
            last = latest = reached = time
        elif time < last or latest - time > fine or lost_between(last, reached) is None:
            yield from ((latest / 1e6 + slot_time(number), None) for number in range(1, dwell + 1))
            last, latest, reached, lost = time, time, time, 0
        count = lost_between(last, reached) or 0
        yield from ((last / 1e6 + slot_time(number), None) for number in range(lost + 1, count + 1))
        lost, latest = count, reached
        if group is not None:
            yield seconds, group
            last, latest, lost = time, time, 0
