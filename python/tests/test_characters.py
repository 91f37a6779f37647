"""Tests of the character table and of the names of content types."""
import ctypes
import unittest

from rdsrt import ContentType, Encoder, Fault, InvalidText, _library, closest, closest_name, type_name
from rdsrt.characters import BYTES, CHARACTERS, MORE, PRINTED, coded, shown

# bytes of the basic table that stay escapes, with the backslash, and the bytes that it leaves empty
ESCAPES = {0x5C, 0x5E, 0x60, 0x7E, 0x9D, 0xA4, 0xCE, 0xEE, 0xFE} | set(range(0x20)) | {0x7F, 0xFF}


class Characters(unittest.TestCase):
    def test_each_byte(self):
        self.assertEqual(set(range(256)) - set(CHARACTERS), ESCAPES)
        self.assertEqual(len(BYTES), len(CHARACTERS))
        self.assertEqual(sum(map(len, PRINTED.values())) + sum(map(len, MORE.values())), len(CHARACTERS))
        self.assertTrue(all(len(it) == 1 and it.isprintable() for it in BYTES))

    def test_the_table_is_that_of_the_c_library(self):
        into, count = ctypes.create_string_buffer(8), ctypes.c_size_t()
        for byte in range(256):
            code = _library.library().rdsrt_text_to_display(bytes([byte]), 1, into, len(into), ctypes.byref(count))
            displayed = into.raw[:count.value].decode()
            self.assertEqual((code, displayed), (_library.OK, "\\" if byte == 0x5C else CHARACTERS.get(byte, "\uFFFD")))

    def test_there_and_back(self):
        for byte in range(256):
            self.assertEqual(coded(shown(bytes([byte]))), bytes([byte]))
            self.assertEqual(coded(f"\\x{byte:02x}\\x{byte:02X}"), bytes([byte, byte]))
        self.assertEqual(shown(b"\\x41"), "\\x5Cx41")
        self.assertEqual(coded(shown(b"\\x41")), b"\\x41")

    def test_words_of_several_languages(self):
        for text, its in (("Straße", b"Stra\x8De"), ("på", b"p\xF1"), ("Rødgrød", b"R\xF7dgr\xF7d"),
                          ("Ærø", b"\xE2r\xF7"),
                          ("čeština", b"\xDBe\xDCtina"), ("São", b"S\xF0o"), ("¿Qué?", b"\xB9Qu\x82?"),
                          ("œuvre", b"\xF3uvre"),
                          ("Þórður", b"\xE8\x86r\xEFur"), ("ŵy", b"\xF4y"), ("garçon", b"gar\x9Bon"),
                          ("20 °C", b"20 \xBBC"),
                          ("đak", b"\xDEak"), ("\"HI\"", b'"HI"')):
            self.assertEqual((coded(text), shown(its)), (its, text))

    def test_invalid_texts(self):
        for text, place in (("a\\", 1), ("\\x4", 0), ("\\xG0", 0), ("ab語", 2), ("\\x41^", 4), ("e\u0301", 1)):
            with self.assertRaises(InvalidText) as invalid:
                coded(text)
            self.assertEqual(invalid.exception.place, place)

    def test_closest_texts(self):
        for text, near in (("Beyoncé – Déjà Vu", "Beyoncé - Déjà Vu"), ("Guns N’ Roses", "Guns N' Roses"),
                           ("“Straße”", '"Straße"'), ("„Łódź”…", '"Lódź"...'),
                           ("e\u0301\u0308", "é"), ("文 Кино", "? ????"),
                           ("AC\\DC", "AC\\x5CDC"), ("\\", "\\x5C"), ("a\\x0Ab\\xFF", "a\\x0Ab\\xFF"), ("\\x0D", "?"),
                           ("a\tb\u00A0c\u200Bd", "a b cd"), ("½ ⅓ ™ ﬁ", "½ 1/3 TM fi"),
                           ("^~`", "?-'"), ("\ud800", "?"),
                           ("\u0301", ""), ("", ""), ("x" * 70, "x" * 64), ("x" * 63 + "…", "x" * 63 + "."),
                           ("\\x41" * 65, "\\x41" * 64)):
            self.assertEqual(closest(text), near, text)

    def test_closest_names(self):
        for name, near in (("JAZZ FM", "JAZZ FM"), ("SATURDAYS", "SATURDAY"), ("N’ROSES", "N'ROSES"), (r"a\x0A", "a?"),
                           (r"\x80$x", r"\x80$x"), ("", "")):
            self.assertEqual(closest_name(name), near, name)

    def test_a_text_that_can_be_sent_is_its_own_closest(self):
        for byte in (0x0A, 0x0B, 0x1F, *range(0x20, 0x100)):
            self.assertEqual(closest(shown(bytes([byte]))), shown(bytes([byte])))

    def test_each_closest_text_is_sent(self):
        characters = [chr(it) for it in range(0x3000)]
        for at in range(0, len(characters), 16):
            text = "".join(characters[at:at + 16])
            encoder = Encoder(0xC201, dwell=1)
            encoder.tick()
            encoder.set_text(closest(text))
            self.assertEqual(encoder.text, shown(coded(closest(text))), text)
            self.assertEqual(closest(closest(text)), closest(text), text)

    def test_pairs_of_letters(self):
        # the columns of the standard's table have the small letter 16 places after the large one
        for byte in [*range(0xCA, 0xCE), 0xCF, *range(0xE0, 0xE4), *range(0xE5, 0xEE)]:
            self.assertEqual(CHARACTERS[byte].lower(), CHARACTERS[byte + 16])


class Names(unittest.TestCase):
    def test_content_types(self):
        self.assertEqual({int(it) for it in ContentType}, set(range(64)) - set(range(54, 59)))
        for number, name in ((1, "ITEM.TITLE"), (4, "ITEM.ARTIST"), (11, "ITEM.GENRE"), (12, "INFO.NEWS"),
                             (13, "INFO.NEWS.LOCAL"), (18, "INFO.DAILY_DIVERSION"), (32, "STATIONNAME.LONG"),
                             (33, "PROGRAMME.NOW"), (36, "PROGRAMME.HOST"), (50, "CHAT"), (51, "CHAT.CENTRE"),
                             (54, "54"), (59, "PLACE"), (63, "GET_DATA"), (0, "DUMMY_CLASS")):
            self.assertEqual(type_name(number), name)

    def test_the_library_has_the_names_of_content_types(self):
        for number in range(256):
            label = _library.Label()
            _library.library().rdsrt_type_name(number, ctypes.byref(label))
            name = type_name(number)
            self.assertEqual(label.bytes.decode(), "" if name.isdigit() else name)

    def test_the_library_has_the_names_of_faults(self):
        for fault in Fault:
            label = _library.Label()
            _library.library().rdsrt_code_name(fault, ctypes.byref(label))
            self.assertEqual(label.bytes.decode(), f"RDSRT_FAULT_{fault.name}")


if __name__ == "__main__":
    unittest.main()
