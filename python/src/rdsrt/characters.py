"""The characters of RDS texts.

This is the table of `rdsrt_text_to_display` of the C library, byte by byte, so that no library is needed for it. A test
compares them. `PRINTED` has the characters of the printed form (FORMATS.md, "Characters"), which the program
prints and scripts take. `MORE` has more characters of the basic table of IEC 62106 (annex E, code table G0).

We had no copy of the standard. Most letters in `MORE` are the same in the table of DAB (ETSI TS 101 756). DAB has other
characters at these bytes, so they are from memory alone: 0x24, 0x8F, 0x9F, 0xA0, 0xA1, 0xA3, 0xA8, 0xAC to 0xAF, 0xB0 to
0xB4, 0xB8, 0xBA, and 0xBC to 0xBF.

A byte without a character here is shown as an escape, \\xHH. These bytes of the standard's table have none, because we
are not sure of their character:

- 0x5E, 0x60 and 0x7E: a bar, a double bar and an overline. Many stations send the ASCII characters ^, ` and ~.
- 0x9D and 0xA4: g and G with a caron or with a breve.
- 0xCE: Đ, or the Icelandic Ð.
- 0xEE and 0xFE: T and t with a stroke or with a caron.

The backslash (0x5C) is shown as \\x5C, because a backslash begins an escape. The C library shows it as it is.
"""
import itertools
import re
import unicodedata
from typing import Dict, Iterable, Iterator, Optional, Tuple


def _ascii(first: int, last: int) -> str:
    return "".join(map(chr, range(first, last + 1)))


PRINTED: Dict[int, str] = {
    0x20: _ascii(0x20, 0x23), 0x25: _ascii(0x25, 0x5B), 0x5D: "]", 0x5F: "_", 0x61: _ascii(0x61, 0x7D),
    0x80: "áàéèíìóòúùÑÇ", 0x90: "âäêëîïôöûüñç", 0xA9: "€£$", 0xC0: "ÁÀÉÈÍÌÓÒÚÙ", 0xD0: "ÂÄÊËÎÏÔÖÛÜ",
}
MORE: Dict[int, str] = {
    0x24: "¤", 0x8C: "Şß¡Ĳ", 0x9C: "ş", 0x9E: "ıĳ", 0xA0: "ªα©‰", 0xA5: "ěňőπ", 0xAC: "←↑→↓", 0xB0: "º¹²³±İńűµ¿÷°¼½¾§",
    0xCA: "ŘČŠŽ", 0xCF: "Ŀ", 0xDA: "řčšžđŀ", 0xE0: "ÃÅÆŒŷÝÕØÞŊŔĆŚŹ", 0xEF: "ð", 0xF0: "ãåæœŵýõøþŋŕćśź",
}
CHARACTERS: Dict[int, str] = {first + place: character for table in (PRINTED, MORE)
                              for first, stretch in table.items() for place, character in enumerate(stretch)}
"""The character of each byte that has one."""
BYTES: Dict[str, int] = {character: byte for byte, character in CHARACTERS.items()}

LONGEST_TEXT, LONGEST_NAME = 64, 8
"""The most bytes of a text and of a PTYN."""
_CONTROLS = {0x0A, 0x0B, 0x1F}                               # the bytes below 0x20 that a text may have
# what is sent for characters without a byte that do not come apart into others
_NEAREST: Dict[str, str] = {
    **dict.fromkeys("\u2018\u2019\u201A\u201B\u2032\u02B9\u02BB\u02BC\u02BD\u2039\u203A\u00B4`", "'"),
    **dict.fromkeys("\u201C\u201D\u201E\u201F\u2033\u02BA\u00AB\u00BB", '"'),
    **dict.fromkeys("\u2010\u2011\u2012\u2013\u2014\u2015\u2212\u2043\u2022\u00B7~", "-"),
    "\u2044": "/", "×": "x", "®": "(R)", "ẞ": "SS", "Ð": "D", "Đ": "D", "Ħ": "H", "ħ": "h", "Ł": "L", "ł": "l",
    "Ŧ": "T", "ŧ": "t", "Ə": "E", "ə": "e",
}

_SHOWN = [CHARACTERS.get(byte, f"\\x{byte:02X}") for byte in range(256)]
_ESCAPE = re.compile(r"\\x([0-9A-Fa-f]{2})")


class InvalidText(ValueError):
    """A text or PTYN that cannot be sent. `place` is the index of the first invalid character, or None."""

    def __init__(self, why: str, place: Optional[int] = None):
        super().__init__(why if place is None else f"{why} at index {place}")
        self.why, self.place = why, place

    def __reduce__(self) -> Tuple[type, Tuple[str, Optional[int]]]:
        return type(self), (self.why, self.place)


def require_str(what: str, it: object) -> None:
    """Raises TypeError if this is not a str."""
    if not isinstance(it, str):
        raise TypeError(f"{what} is a str and not {type(it).__name__}")


def shown(coded: bytes) -> str:
    """Returns the bytes of an RDS text as Unicode. A byte without a character becomes \\xHH."""
    return "".join([_SHOWN[byte] for byte in coded])


def _nearest(character: str) -> str:
    """Returns what is sent for a character without a byte: nothing for a mark of its own and for a character without a
    width, a space for a control character, and ? if no character is near."""
    kind = unicodedata.category(character)
    if kind in ("Cf", "Mn", "Me"):
        return ""
    if kind in ("Cc", "Zl", "Zp"):
        return " "
    pieces = _NEAREST.get(character) or "".join(_NEAREST.get(it, it) for it in unicodedata.normalize("NFKD", character))
    return "".join(it for it in pieces if it in BYTES) or "?"


def _closest_symbols(text: str, controls: Iterable[int]) -> Iterator[str]:
    """Yields the characters and escapes of the closest text, each of which is one byte. Of the bytes below 0x20 it may
    have these."""
    place = 0
    while place < len(text):
        escape = _ESCAPE.match(text, place)
        if escape:
            byte = int(escape[1], 16)
            yield escape[0] if byte >= 0x20 or byte in controls else "?"
        elif text[place] == "\\":
            yield "\\x5C"
        elif text[place] in BYTES:
            yield text[place]
        else:
            yield from _nearest(text[place])
        place += len(escape[0]) if escape else 1


def closest(text: str) -> str:
    """Returns the closest text that can be sent: `Encoder.set_text` does not raise InvalidText for it.

    A quotation mark, a dash or a letter without a byte becomes the nearest one: ’ becomes ', and Ł becomes L. A
    character that has no near one becomes ?. The text ends after 64 characters. An escape \\xHH stays if its byte can
    be sent. Any other backslash becomes \\x5C."""
    require_str("a text", text)
    return "".join(itertools.islice(_closest_symbols(unicodedata.normalize("NFC", text), _CONTROLS), LONGEST_TEXT))


def closest_name(name: str) -> str:
    """Returns the closest PTYN that can be sent, as `closest` does for texts. It ends after 8 characters."""
    require_str("a PTYN", name)
    return "".join(itertools.islice(_closest_symbols(unicodedata.normalize("NFC", name), ()), LONGEST_NAME))


def symbols(text: str) -> Iterator[Tuple[int, int]]:
    """Yields the byte of each character or escape of a text, with its index. Raises InvalidText."""
    require_str("a text", text)
    place = 0
    while place < len(text):
        escape = _ESCAPE.match(text, place)
        if escape:
            yield place, int(escape[1], 16)
        elif text[place] == "\\":
            raise InvalidText("no escape \\xHH", place)
        elif text[place] not in BYTES:
            raise InvalidText(f"no RDS character {text[place]!r}", place)
        else:
            yield place, BYTES[text[place]]
        place += len(escape[0]) if escape else 1


def coded(text: str) -> bytes:
    """Returns the bytes of a text in Unicode, in which \\xHH may stand for a byte. Raises InvalidText."""
    return bytes(byte for _, byte in symbols(text))
