"""RDS texts that are never a mix of two, if the station keeps one rule: receivers, encoders and audits, by the C
library librdsrt.

    from rdsrt import Receiver, read_log

    with open("received.log", "rb") as log:
        for slot, view in Receiver(0xC201).watch(read_log(log)):
            print(slot, view.text)

A slot is the time of one RDS group, about 88 ms. Each slot is one call, a lost slot too: its group is None. `slots`
makes such a row of groups with times of arrival.

`name` is the programme type name (PTYN, group 10A) everywhere. The station name (PS) is not handled.

The C library is proved. The names of RT+ content types from 12 on are this package's own, see `ContentType`. The
characters are those of `rdsrt.characters`.

An object holds no file, no thread and no memory of the library, so nothing has to be closed. Objects can be copied,
pickled and compared. Threads may use different objects at the same time. One thread may change an object, and others
may read what it shows meanwhile. A Python without the global lock (free-threaded) needs a lock of yours for that.
"""
from ._library import DEFAULT_DWELL, NoLibrary
from .characters import InvalidText, closest, closest_name
from .logs import Group, MalformedLine, format_group, read_log, read_timed, slot_time, slots, timed_slots
from .objects import (Audit, Encoder, Fault, Held, NoText, OutOfText, Receiver, Refused, Silent, Wait,
                      exchange_tag_group, library_version)
from .views import ContentType, Item, Segments, Tag, View, type_name

__all__ = ["Audit", "ContentType", "DEFAULT_DWELL", "Encoder", "Fault", "Group", "Held", "InvalidText", "Item",
           "MalformedLine", "NoLibrary", "NoText", "OutOfText", "Receiver", "Refused", "Segments", "Silent", "Tag",
           "View", "Wait", "closest", "closest_name", "exchange_tag_group", "format_group", "library_version",
           "read_log", "read_timed", "slot_time", "slots", "timed_slots", "type_name"]
__version__ = "0.2.0"
