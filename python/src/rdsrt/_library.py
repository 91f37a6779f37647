"""Declares the C library for ctypes, and loads it at the first call."""
import ctypes
import ctypes.util
import functools
import os
from typing import Any, Dict, Iterator, List, Tuple

ABI = 10
NAME = f"librdsrt.so.{ABI}"
DEFAULT_DWELL = 128
OK, DONE, BAD_ARGUMENT, SILENT, HELD, NO_TEXT, OUT_OF_TEXT_1, OUT_OF_TEXT_2 = 0, 1, 2, 3, 4, 5, 6, 7
TOO_LONG, BAD_BYTE, BAD_TAGS = 8, 9, 10
UNKNOWN = 0xFFFFFFFF
AUDIT_RUNNING, AUDIT_PADDED = 1, 2

u8, u16, u32, u64, size_t = ctypes.c_uint8, ctypes.c_uint16, ctypes.c_uint32, ctypes.c_uint64, ctypes.c_size_t
Blocks = u16 * 4


class NoLibrary(ImportError):
    """The C library is missing, or has another interface."""


class Text(ctypes.Structure):
    _fields_ = [("bytes", u8 * 64), ("length", u8), ("is_shown", u8)]


class Name(ctypes.Structure):
    _fields_ = [("bytes", u8 * 8), ("is_shown", u8)]


class Item(ctypes.Structure):
    _fields_ = [("is_shown", u8), ("toggle", u8), ("running", u8)]


class Tag(ctypes.Structure):
    _fields_ = [("content_type", u8), ("start", u8), ("length", u8)]


class View(ctypes.Structure):
    _fields_ = [("text", Text), ("name", Name), ("item", Item), ("tag1", Tag), ("tag2", Tag)]


class Display(ctypes.Structure):
    _fields_ = [("view", View), ("own", u16 * 5)]


class OnAir(ctypes.Structure):
    _fields_ = [("text", Text), ("name", Name)]


class Tags(ctypes.Structure):
    _fields_ = [("tag1", Tag), ("tag2", Tag), ("toggle", u8), ("running", u8)]


class Reply(ctypes.Structure):
    _fields_ = [("code", u32), ("number", u32)]


class Wait(ctypes.Structure):
    _fields_ = [("silent", u32), ("text", u32), ("name", u32)]


class Segments(ctypes.Structure):
    _fields_ = [("held", u16), ("age", u16)]


class HeldSegments(ctypes.Structure):
    _fields_ = [("text", Segments), ("name", Segments)]


class Label(ctypes.Structure):
    _fields_ = [("bytes", ctypes.c_char * 31), ("length", u8)]


class Faults(ctypes.Structure):
    _fields_ = [("changed", u8), ("early_flag", u8), ("not_one_text", u8), ("early_tag", u8), ("tag_outside", u8)]


class Version(ctypes.Structure):
    _fields_ = [("abi", u32), ("major", u32), ("minor", u32), ("patch", u32)]


Receiver, Encoder, Audit = u32 * 66, u32 * 29, u64 * 39
SIZES: Dict[Any, int] = {Receiver: 264, Encoder: 116, Audit: 312, Faults: 5, View: 84, Display: 94, OnAir: 75, Tags: 8,
                         Reply: 8, Wait: 12, HeldSegments: 8, Label: 32}


class Displayed(ctypes.Structure):
    """A receiver and its display."""
    _fields_ = [("receiver", Receiver), ("display", Display)]


ANY = ctypes.c_void_p
CALLS: Dict[str, Tuple[Any, List[Any]]] = {
    "version": (Version, []),
    "receiver_init": (u32, [ANY, u16, u16]),
    "receiver_init_confirming": (u32, [ANY, u16, u16, u16]),
    "receiver_view": (None, [ANY, ANY]),
    "receiver_held": (None, [ANY, ANY]),
    "display_init": (None, [ANY, u16]),
    "display_slot": (u32, [ANY, ANY, ANY, size_t]),
    "slot_time": (u64, [u32]),
    "time_in": (u32, [ANY, size_t, ANY]),
    "lost_slots": (u32, [u64, u64, u32]),
    "encoder_init": (u32, [ANY, u16, u8, u8, u16, u16]),
    "encoder_set_text": (Reply, [ANY, ANY, size_t]),
    "encoder_set_name": (Reply, [ANY, ANY, size_t]),
    "encoder_set_tags": (Reply, [ANY, ANY]),
    "encoder_tick": (u32, [ANY, u8, ANY]),
    "encoder_on_air": (None, [ANY, ANY]),
    "encoder_wait": (None, [ANY, ANY]),
    "exchange_tag_group": (u32, [u8, ANY]),
    "audit_init_with": (u32, [ANY, u16, u16, u16, u32]),
    "audit_slot": (u32, [ANY, ANY, size_t]),
    "audit_all_faults": (u32, [ANY, ANY, size_t, ANY]),
    "audit_passed": (u32, [ANY]),
    "audit_texts": (u64, [ANY]),
    "audit_names": (u64, [ANY]),
    "audit_texts_turn_the_flag": (u32, [ANY]),
    "audit_names_turn_the_flag": (u32, [ANY]),
    "text_to_display": (u32, [ANY, size_t, ANY, size_t, ANY]),
    "type_name": (None, [u8, ANY]),
    "code_name": (None, [u32, ANY]),
}


def places() -> Iterator[str]:
    """Yields the files to try: the one that RDSRT_LIBRARY names, or else the wheel's own, that of the checkout and the
    system's."""
    named = os.environ.get("RDSRT_LIBRARY")
    if named:
        yield named
        return
    here = os.path.dirname(os.path.abspath(__file__))
    # ./install leaves a copy in the checkout
    for folder in (here, os.path.join(here, "../../../crates/rds_ffi/out")):
        own = os.path.join(folder, NAME)
        if os.path.exists(own):
            yield own
    yield NAME
    found = ctypes.util.find_library("rdsrt")
    if found:
        yield found


def loaded(place: str) -> Any:
    """Returns the library in this file with its calls declared. Raises NoLibrary if the file is not this library."""
    try:
        # PyDLL and not CDLL: a call keeps Python's lock, so no other thread reads or writes its struct meanwhile
        it: Any = ctypes.PyDLL(place)
        for name, (result, arguments) in CALLS.items():
            call = getattr(it, f"rdsrt_{name}")
            call.restype, call.argtypes = result, arguments
    except (OSError, AttributeError) as fault:
        raise NoLibrary(str(fault)) from None
    if it.rdsrt_version().abi != ABI:
        raise NoLibrary(f"{place} has interface {it.rdsrt_version().abi}, and not {ABI}")
    return it


@functools.lru_cache(maxsize=None)
def library() -> Any:
    """Returns the library. Raises NoLibrary if no file has it."""
    for layout, size in SIZES.items():
        if ctypes.sizeof(layout) != size:
            raise NoLibrary("this Python has another layout of structs than the library")
    faults: List[str] = []
    for place in places():
        try:
            return loaded(place)
        except NoLibrary as fault:
            faults.append(str(fault))
    raise NoLibrary(f"no {NAME} ({'; '.join(faults)}): run ./install PREFIX in the checkout, or name the file of the "
                    "library in RDSRT_LIBRARY")
