"""The display of a receiver, and the content types of RadioText Plus (RT+)."""
import enum
from dataclasses import dataclass
from typing import Any, Dict, NamedTuple, Optional, Tuple


class ContentType(enum.IntEnum):
    """The content types of RT+ tags: the class list of RT+. The program has the names up to ITEM_GENRE; the others are
    this package's own. 54 to 58 have no name."""
    DUMMY_CLASS = 0
    ITEM_TITLE, ITEM_ALBUM, ITEM_TRACKNUMBER, ITEM_ARTIST, ITEM_COMPOSITION, ITEM_MOVEMENT = 1, 2, 3, 4, 5, 6
    ITEM_CONDUCTOR, ITEM_COMPOSER, ITEM_BAND, ITEM_COMMENT, ITEM_GENRE = 7, 8, 9, 10, 11
    INFO_NEWS, INFO_NEWS_LOCAL, INFO_STOCKMARKET, INFO_SPORT, INFO_LOTTERY, INFO_HOROSCOPE = 12, 13, 14, 15, 16, 17
    INFO_DAILY_DIVERSION, INFO_HEALTH, INFO_EVENT, INFO_SCENE, INFO_CINEMA, INFO_TV = 18, 19, 20, 21, 22, 23
    INFO_DATE_TIME, INFO_WEATHER, INFO_TRAFFIC, INFO_ALARM, INFO_ADVERTISEMENT, INFO_URL, INFO_OTHER = range(24, 31)
    STATIONNAME_SHORT, STATIONNAME_LONG = 31, 32
    PROGRAMME_NOW, PROGRAMME_NEXT, PROGRAMME_PART, PROGRAMME_HOST = 33, 34, 35, 36
    PROGRAMME_EDITORIAL_STAFF, PROGRAMME_FREQUENCY, PROGRAMME_HOMEPAGE, PROGRAMME_SUBCHANNEL = 37, 38, 39, 40
    PHONE_HOTLINE, PHONE_STUDIO, PHONE_OTHER, SMS_STUDIO, SMS_OTHER = 41, 42, 43, 44, 45
    EMAIL_HOTLINE, EMAIL_STUDIO, EMAIL_OTHER, MMS_OTHER = 46, 47, 48, 49
    CHAT, CHAT_CENTRE, VOTE_QUESTION, VOTE_CENTRE = 50, 51, 52, 53
    PLACE, APPOINTMENT, IDENTIFIER, PURCHASE, GET_DATA = 59, 60, 61, 62, 63


_GROUPS = {"ITEM", "INFO", "STATIONNAME", "PROGRAMME", "PHONE", "SMS", "EMAIL", "MMS", "CHAT", "VOTE"}
_TYPES: Dict[int, ContentType] = {int(it): it for it in ContentType}


def content_type_of(number: int) -> int:
    """Returns the number as a ContentType if it has a name, and else as it is."""
    return _TYPES.get(number, number)


def type_name(number: int) -> str:
    """Returns the name of a content type, for example ITEM.TITLE, or else its number."""
    if number not in _TYPES:
        return str(int(number))
    name = _TYPES[number].name.replace("NEWS_LOCAL", "NEWS.LOCAL")
    group, _, rest = name.partition("_")
    return f"{group}.{rest}" if rest and group in _GROUPS else name


@dataclass(frozen=True)
class Tag:
    """An RT+ tag: a content type (ContentType, or an int if it has no name) and the piece of the text that has it.

    `start` and `length` are the place of the piece in the text as it is sent: each escape is one character."""
    content_type: int
    text: str
    start: int
    length: int


class Segments(NamedTuple):
    """The segments that a receiver holds of a text or a name (PTYN), by their numbers; segment a has the characters from
    4a to 4a + 3. `age` is how many slots ago the newest one came, or the dwell if none is held."""
    held: Tuple[int, ...]
    age: int


class Item(NamedTuple):
    """The item toggle and item running bits of RT+."""
    toggle: bool
    running: bool


@dataclass(frozen=True)
class View:
    """The display of a receiver. A part that is None is not shown.

    `name` is the programme type name (PTYN, group 10A) with its spaces, eight characters. It is not the station name
    (PS), which this package does not handle."""
    text: Optional[str] = None
    name: Optional[str] = None
    item: Optional[Item] = None
    tags: Tuple[Tag, ...] = ()

    def tag(self, content_type: int) -> Optional[str]:
        """Returns the text of the tag of this content type, or None."""
        if not hasattr(content_type, "__index__"):
            raise TypeError(f"a content type is a ContentType or an int and not {type(content_type).__name__}")
        return next((it.text for it in self.tags if it.content_type == content_type), None)

    def as_json(self) -> Dict[str, Any]:
        """Returns an object for JSON, with the key names of redsea if redsea has one. A part that is not shown is None.

        `ptyn` is the programme type name (PTYN) without the spaces at its end."""
        plus: Optional[Dict[str, Any]] = None
        if self.item:
            tags = [{"content-type": type_name(it.content_type).lower(), "data": it.text} for it in self.tags]
            plus = {"item_running": self.item.running, "item_toggle": int(self.item.toggle), "tags": tags}
        name = self.name.rstrip(" ") if self.name is not None else None
        return {"radiotext": self.text, "radiotext_plus": plus, "ptyn": name}
