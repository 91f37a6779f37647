"""Receivers, encoders and audits: the structs of the C library as Python objects."""
from __future__ import annotations

import ctypes
import enum
from typing import Any, Dict, Iterable, Iterator, List, NamedTuple, Optional, Sequence, Tuple, TypeVar

from . import _library as c
from .characters import InvalidText, coded, require_str, shown, symbols
from .logs import Group, Integer, blocks_of, in_range, slot_time, timed_slots
from .views import ContentType, Item, Segments, Tag, View, content_type_of

_Any = TypeVar("_Any", bound="_Plain")
_Key = TypeVar("_Key")


class Fault(enum.IntEnum):
    """The rule that a log breaks first. FORMATS.md, "Faults of the audit", has the cause and the cure of each."""
    CHANGED, NOT_ONE_TEXT, EARLY_FLAG, EARLY_TAG, TAG_OUTSIDE = 17, 18, 19, 20, 21

    def __str__(self) -> str:
        """Returns the name that `rdsrt audit` prints."""
        return "".join(word.capitalize() for word in self.name.split("_"))


class Refused(Exception):
    """A refused set. Nothing has changed."""


class Silent(Refused):
    """The encoder is silent after its start, for `slots` more slots."""

    def __init__(self, slots: int):
        super().__init__(slots)
        self.slots = slots

    def __str__(self) -> str:
        return f"silent for {self.slots} more slots"


class Held(Refused):
    """The text or PTYN before holds this one back, for `slots` more slots."""

    def __init__(self, slots: int):
        super().__init__(slots)
        self.slots = slots

    def __str__(self) -> str:
        return f"held back for {self.slots} more slots"


class NoText(Refused):
    """No text is on air, so there is nothing to tag."""

    def __str__(self) -> str:
        return "no text is on air"


class OutOfText(Refused):
    """The text on air does not have the piece of tag 1 or 2. `name` is its keyword, if `Encoder.tag` raised this."""

    def __init__(self, tag: int, name: Optional[str] = None):
        super().__init__(tag, name)
        self.tag, self.name = tag, name

    def __str__(self) -> str:
        return f"the text on air does not have the piece of {self.name or f'tag {self.tag}'}"


class Wait(NamedTuple):
    """For how many more slots an encoder refuses every set (silent), a text, a name (PTYN); 0 if it does not."""
    silent: int
    text: int
    name: int


def library_version() -> str:
    """Returns the version of the C library."""
    it = c.library().rdsrt_version()
    return f"{it.major}.{it.minor}.{it.patch}"


def _blocks(group: Optional[Sequence[Integer]]) -> Tuple[Any, int]:
    """Returns a group as the library takes it: blocks and their count."""
    return (None, 0) if group is None else (c.Blocks(*blocks_of(group)), 4)


def exchange_tag_group(number: Integer, group: Optional[Sequence[Integer]]) -> Optional[Group]:
    """Returns the group with the group types 11A and `number`A exchanged: its own type, and the one that a 3A gives to an
    application. The same call again exchanges them back. A lost slot (None) stays.

    All objects read and write RT+ tags in group 11A. If a station has them in another type, which its groups 3A name,
    exchange each group before `slot`, and each one that `tick` returns. Raises ValueError unless the number is 5 to 9 or
    11 to 13.
    """
    blocks, _ = _blocks(group)
    number = in_range("a group type of tags", number, 0, 255)
    if c.library().rdsrt_exchange_tag_group(number, blocks if blocks else c.Blocks()) != c.OK:
        raise ValueError(f"RT+ tags are in groups 5A to 9A or 11A to 13A and not in {number}A")
    if group is None:
        return None
    one, two, three, four = blocks
    return one, two, three, four


def _text_of(it: c.Text) -> Optional[str]:
    return shown(bytes(it.bytes[:it.length])) if it.is_shown else None


def _name_of(it: c.Name) -> Optional[str]:
    return shown(bytes(it.bytes)) if it.is_shown else None


def _view_of(it: c.View) -> View:
    text = bytes(it.text.bytes)
    tags = tuple(Tag(content_type_of(tag.content_type), shown(text[tag.start:tag.start + tag.length]), tag.start,
                     tag.length) for tag in (it.tag1, it.tag2) if tag.length)
    item = Item(bool(it.item.toggle), bool(it.item.running)) if it.item.is_shown else None
    return View(_text_of(it.text), _name_of(it.name), item, tags)


class _Plain:
    """A struct of the library, for a programme and a dwell. It can be copied, pickled and compared. Two objects are
    equal if their structs have the same bytes. Only the calls change it: its numbers are read-only, and no other attribute
    can be set."""
    __slots__ = ("_its", "_pi", "_dwell", "__weakref__")
    _type: Any
    _its: Any
    _pi: int
    _dwell: int

    @property
    def pi(self) -> int:
        """The programme (PI)."""
        return self._pi

    @property
    def dwell(self) -> int:
        """The dwell in slots."""
        return self._dwell

    @classmethod
    def _fields(cls) -> List[str]:
        """Returns the names of the attributes of this package's classes."""
        return [name for kind in cls.__mro__ for name in getattr(kind, "__slots__", ()) if name != "__weakref__"]

    def __getstate__(self) -> Dict[str, Any]:
        # a class of a user may have attributes of its own
        more = getattr(self, "__dict__", {})
        return {**more, **{name: getattr(self, name) for name in self._fields()}, "_its": bytes(self._its), "_abi": c.ABI}

    def __setstate__(self, state: Dict[str, Any]) -> None:
        fields = self._fields()
        more = {name: it for name, it in state.items() if name not in ("_abi", *fields)}
        if not {"_abi", *fields} <= set(state) or (more and not hasattr(self, "__dict__")):
            raise ValueError("this state has other fields than this class")
        if state["_abi"] != c.ABI or len(state["_its"]) != ctypes.sizeof(self._type):
            raise ValueError("this state is of another version of the library")
        its = self._type.from_buffer_copy(state["_its"])
        for name in fields:
            setattr(self, name, state[name])
        self._its = its
        if more:
            self.__dict__.update(more)

    def __copy__(self: _Any) -> _Any:
        other = type(self).__new__(type(self))
        other.__setstate__(self.__getstate__())
        return other

    def __deepcopy__(self: _Any, memo: Dict[int, Any]) -> _Any:
        return self.__copy__()

    def __eq__(self, other: object) -> bool:
        return isinstance(other, _Plain) and type(other) is type(self) and self.__getstate__() == other.__getstate__()

    __hash__ = None  # type: ignore[assignment]


class Receiver(_Plain):
    """A receiver of the programme `pi` that got nothing yet. It drops a text if no part of it arrived for `dwell`
    slots.

    With a `window`, 2 to 255 slots, it shows only what it received twice less than so many slots apart. Its groups may
    have corrected bits.

    With `keep_seconds` the view keeps a text for so long after the receiver dropped it, with its tags, until the next
    text comes. Names likewise. The time is rounded to slots, at most 65,535 of them. 60 is good for what a listener
    sees."""
    __slots__ = ("_window", "_keep")
    _type = c.Displayed
    _window: Optional[int]
    _keep: int

    def __init__(self, pi: Integer, dwell: Integer = c.DEFAULT_DWELL, *,
                 window: Optional[Integer] = None, keep_seconds: float = 0):
        self._pi, self._dwell = in_range("pi", pi, 0, 0xFFFF), in_range("dwell", dwell, 1, 0xFFFF)
        self._window = None if window is None else in_range("window", window, 2, 0xFF)
        if not 0 <= keep_seconds <= slot_time(0xFFFF):
            raise ValueError(f"keep_seconds is {keep_seconds!r} and not from 0 to {slot_time(0xFFFF):.1f}")
        self._keep = round(keep_seconds / slot_time(0xFFFF) * 0xFFFF)
        self._its = self._type()
        c.library().rdsrt_display_init(ctypes.byref(self._its.display), self._keep)
        if self._window is None:
            c.library().rdsrt_receiver_init(self._its.receiver, self.pi, self.dwell)
        else:
            c.library().rdsrt_receiver_init_confirming(self._its.receiver, self.pi, self.dwell, self._window)

    def __repr__(self) -> str:
        window = "" if self._window is None else f", window {self._window}"
        keep = f", keep {self._keep}" if self._keep else ""
        return f"<Receiver of {self.pi:04X}, dwell {self.dwell}{window}{keep}: {self.view}>"

    @property
    def window(self) -> Optional[int]:
        """The window in slots. None if the receiver shows what it received once."""
        return self._window

    @property
    def keep(self) -> int:
        """For how many slots the view keeps what the receiver dropped."""
        return self._keep

    def slot(self, group: Optional[Sequence[Integer]]) -> bool:
        """Ends a slot with this group, or with None if no whole group arrived. Returns whether the view may have
        changed."""
        blocks, count = _blocks(group)
        its, display = self._its.receiver, ctypes.byref(self._its.display)
        return bool(c.library().rdsrt_display_slot(display, its, blocks, count) == c.DONE)

    @property
    def view(self) -> View:
        """Everything that the display shows at the end of the last slot."""
        return _view_of(self._its.display.view)

    @property
    def received(self) -> View:
        """What the receiver itself shows, of which nothing is kept. Ask it before you act on tags."""
        it = c.View()
        c.library().rdsrt_receiver_view(self._its.receiver, ctypes.byref(it))
        return _view_of(it)

    @property
    def segments(self) -> Tuple[Segments, Segments]:
        """The segments that are held of the text and of the name, complete or not."""
        it = c.HeldSegments()
        c.library().rdsrt_receiver_held(self._its.receiver, ctypes.byref(it))
        text, name = (Segments(tuple(a for a in range(16) if of.held >> a & 1), of.age) for of in (it.text, it.name))
        return text, name

    def watch(self, groups: Iterable[Optional[Sequence[Integer]]]) -> Iterator[Tuple[int, View]]:
        """Takes these slots. Yields the number of each slot that changed the view, from 0, and the view."""
        return self._changes(enumerate(groups))

    def watch_timed(self, timed: Iterable[Tuple[float, Optional[Group]]],
                    grain: float = 0.02) -> Iterator[Tuple[float, View]]:
        """Takes groups with their times, and the slots that were lost between them (`timed_slots`). Yields the time of
        each slot that changed the view, in seconds, and the view."""
        return self._changes(timed_slots(timed, grain, self.dwell + self.keep))

    def _changes(self, slots: Iterable[Tuple[_Key, Optional[Sequence[Integer]]]]) -> Iterator[Tuple[_Key, View]]:
        last = self.view
        for key, group in slots:
            if self.slot(group) and (view := self.view) != last:
                last = view
                yield key, view


class Encoder(_Plain):
    """A station that (re)starts now. It sends nothing and refuses every set for `dwell` + `late` slots.

    `pty` is the programme type, 0 to 31; `tp` the flag of traffic announcements; `late` how many slots late a group may
    reach a receiver, 0 to 1024. `name` below is the programme type name (PTYN, group 10A). The encoder sends no station
    name (PS)."""
    __slots__ = ("_pty", "_tp", "_late")
    _type = c.Encoder

    def __init__(self, pi: Integer, *, pty: Integer = 0, tp: bool = False, dwell: Integer = c.DEFAULT_DWELL,
                 late: Integer = 0):
        self._pi, self._pty, self._tp = in_range("pi", pi, 0, 0xFFFF), in_range("pty", pty, 0, 31), bool(tp)
        self._dwell, self._late = in_range("dwell", dwell, 1, 0xFFFF), in_range("late", late, 0, 1024)
        self._its = c.Encoder()
        c.library().rdsrt_encoder_init(self._its, self.pi, int(self.tp), self.pty, self.dwell, self.late)

    def __repr__(self) -> str:
        return f"<Encoder of {self.pi:04X}, dwell {self.dwell}, late {self.late}: {self.text!r}>"

    @property
    def pty(self) -> int:
        """The programme type."""
        return self._pty

    @property
    def tp(self) -> bool:
        """The flag of traffic announcements."""
        return self._tp

    @property
    def late(self) -> int:
        """How many slots late a group may reach a receiver."""
        return self._late

    def set_text(self, text: str) -> None:
        """Puts a text of up to 64 characters on air from this slot on, and removes the tags. Raises Silent, Held or
        InvalidText."""
        its = coded(text)
        self._raise(c.library().rdsrt_encoder_set_text(self._its, its, len(its)), text, 64)

    def set_name(self, name: str) -> None:
        """Puts a programme type name (PTYN, group 10A) of up to 8 characters on air. It is not the station name (PS).
        Raises Silent, Held or InvalidText."""
        its = coded(name)
        self._raise(c.library().rdsrt_encoder_set_name(self._its, its, len(its)), name, 8)

    def set_tags(self, *tags: Tuple[Integer, Integer, Integer], toggle: bool = False,
                 running: bool = True) -> None:
        """Gives the text on air up to two tags, in place of those before. A tag is its content type, the place of its
        first character from 0 and its number of characters (an escape is one), up to 64, of the second tag 32. Raises
        Silent, NoText or OutOfText."""
        if len(tags) > 2:
            raise ValueError(f"a text has up to 2 tags and not {len(tags)}")
        its = c.Tags(toggle=int(bool(toggle)), running=int(bool(running)))
        for tag, most, (kind, start, length) in zip((its.tag1, its.tag2), (64, 32), tags):
            tag.content_type = in_range("content type", kind, 1, 63)
            tag.start, tag.length = in_range("start", start, 0, 63), in_range("length", length, 1, most)
        self._raise(c.library().rdsrt_encoder_set_tags(self._its, ctypes.byref(its)), "", 0)

    def tag(self, *, toggle: bool = False, running: bool = True, **pieces: str) -> None:
        """Tags up to two pieces of the text on air, for example `tag(artist="ABBA", title="Waterloo")`. A keyword is
        the name of a ContentType in lower case; `item_` may be left out. Raises the exceptions of set_tags."""
        air = self._on_air().text
        text = bytes(air.bytes[:air.length])
        tags: List[Tuple[int, int, int]] = []
        for name, piece in pieces.items():
            kind = name.upper()
            if f"ITEM_{kind}" in ContentType.__members__:
                kind = f"ITEM_{kind}"
            if kind not in ContentType.__members__:
                raise ValueError(f"no content type has the name {name}")
            require_str(f"the piece of {name}", piece)
            its = coded(piece)
            if not its:
                raise ValueError(f"the piece of {name} is empty")
            if air.is_shown and its not in text:
                raise OutOfText(len(tags) + 1, name)
            tags.append((ContentType[kind], max(0, text.find(its)), len(its)))
        # the second tag is the one with the shorter limit
        self.set_tags(*sorted(tags, key=lambda it: -it[2]), toggle=toggle, running=running)

    @staticmethod
    def _raise(reply: Any, text: str, most: int) -> None:
        """Raises the exception of this reply to a set, if the set was refused."""
        if reply.code == c.OK:
            return
        if reply.code == c.TOO_LONG:
            raise InvalidText(f"more than {most} characters")
        if reply.code == c.BAD_BYTE:
            place = [place for place, _ in symbols(text)][reply.number]
            raise InvalidText("a character that may not be sent", place)
        refusals: Dict[int, Exception] = {
            c.SILENT: Silent(reply.number), c.HELD: Held(reply.number), c.NO_TEXT: NoText(),
            c.OUT_OF_TEXT_1: OutOfText(1), c.OUT_OF_TEXT_2: OutOfText(2), c.BAD_TAGS: ValueError("invalid tags"),
        }
        raise refusals[reply.code]

    def tick(self, free: bool = True) -> Optional[Group]:
        """Ends the slot. Returns the group to send in it, or None. If the slot is not free for text services, returns
        None."""
        blocks = c.Blocks()
        if c.library().rdsrt_encoder_tick(self._its, int(bool(free)), blocks) != c.DONE:
            return None
        one, two, three, four = blocks
        return one, two, three, four

    def _on_air(self) -> c.OnAir:
        it = c.OnAir()
        c.library().rdsrt_encoder_on_air(self._its, ctypes.byref(it))
        return it

    @property
    def text(self) -> Optional[str]:
        """The text on air, or None."""
        return _text_of(self._on_air().text)

    @property
    def name(self) -> Optional[str]:
        """The programme type name (PTYN) on air with its spaces, or None. It is not the station name (PS)."""
        return _name_of(self._on_air().name)

    @property
    def wait(self) -> Wait:
        """For how many more slots the encoder refuses sets, this slot included."""
        it = c.Wait()
        c.library().rdsrt_encoder_wait(self._its, ctypes.byref(it))
        return Wait(it.silent, it.text, it.name)


class Audit(_Plain):
    """Judges, slot by slot, whether an encoder keeps the rules that prevent mixes. Give it each group that was sent.
    The verdict means nothing for groups that a receiver got.

    A complete log begins when the station starts. With `running=True` the station was on air before the first slot, as
    in a recording. With `padded=True` texts may have padding: bytes behind the carriage return of a text do not count.

    A station that sends segments less often than every `dwell` + `late` slots can get a fault although it keeps the
    spacing."""
    __slots__ = ("_late", "_slots")
    _type = c.Audit

    def __init__(self, pi: Integer, dwell: Integer = c.DEFAULT_DWELL, late: Integer = 0, *,
                 running: bool = False, padded: bool = False):
        self._pi, self._slots = in_range("pi", pi, 0, 0xFFFF), 0
        self._dwell, self._late = in_range("dwell", dwell, 1, 0xFFFF), in_range("late", late, 0, 1024)
        self._its = self._type()
        flags = (c.AUDIT_RUNNING if running else 0) | (c.AUDIT_PADDED if padded else 0)
        c.library().rdsrt_audit_init_with(self._its, self.pi, self.dwell, self.late, flags)

    def __repr__(self) -> str:
        verdict = "passed" if self.passed else "not passed"
        return f"<Audit of {self.pi:04X}, dwell {self.dwell}, late {self.late}: {self.slots} slots, {verdict}>"

    def slot(self, group: Optional[Sequence[Integer]]) -> Optional[Fault]:
        """Ends a slot in which this group was sent, or None. Returns the fault from the slot that breaks a rule on, and
        before it None."""
        blocks, count = _blocks(group)
        code = c.library().rdsrt_audit_slot(self._its, blocks, count)
        self._slots += 1
        return Fault(code) if code else None

    def all_faults(self, group: Optional[Sequence[Integer]]) -> Tuple[Fault, ...]:
        """Ends a slot in which this group was sent, or None, also after a fault. Returns the faults that the slot adds to
        the list of all faults. Each text or name has each fault at most once, in the first slot in which it breaks the
        rule. Other bytes at an address of a text begin a new text (FORMATS.md, "All faults of a log")."""
        blocks, count = _blocks(group)
        found = c.Faults()
        c.library().rdsrt_audit_all_faults(self._its, blocks, count, ctypes.byref(found))
        self._slots += 1
        return tuple(Fault[name.upper()] for name, _ in found._fields_ if getattr(found, name))

    def take(self, groups: Iterable[Optional[Sequence[Integer]]]) -> Optional[Tuple[int, Fault]]:
        """Takes these slots up to the first fault. Returns the number of its slot, from 0 at the start of the audit,
        and the fault; or None if no rule is broken."""
        for group in groups:
            fault = self.slot(group)
            if fault:
                return self.slots - 1, fault
        return None

    @property
    def late(self) -> int:
        """How many slots late a group may reach a receiver."""
        return self._late

    @property
    def slots(self) -> int:
        """How many slots have ended."""
        return self._slots

    @property
    def passed(self) -> bool:
        """Whether no rule is broken so far."""
        return bool(c.library().rdsrt_audit_passed(self._its) == 1)

    @property
    def texts(self) -> int:
        """How many texts there were so far. One that changed its bytes without the flag counts as two. After a fault only
        `all_faults` counts on."""
        return int(c.library().rdsrt_audit_texts(self._its))

    @property
    def names(self) -> int:
        """How many names (PTYN) there were so far, as for texts."""
        return int(c.library().rdsrt_audit_names(self._its))

    @property
    def texts_turn_the_flag(self) -> bool:
        """Whether no rule is broken so far, and the A/B flag turned with each new text."""
        return bool(c.library().rdsrt_audit_texts_turn_the_flag(self._its) == 1)

    @property
    def names_turn_the_flag(self) -> bool:
        """Whether no rule is broken so far, and the A/B flag turned with each new name (PTYN)."""
        return bool(c.library().rdsrt_audit_names_turn_the_flag(self._its) == 1)
