"""Tests of what bytes count as, on the library that the module puretakoi finds."""

import re
import types
import unittest
from pathlib import Path
from unittest import mock

import puretakoi_library
from puretakoi import Class, classes_of
from puretakoi_words import CLASS_NAMES

ROOT = Path(__file__).resolve().parents[2]

# Bytes by hand, and all that they count as.
BY_HAND = {
    b" \t": "blank",
    b"\0\n\v\f\r!$*+-:;=@[\\]^|~\x7f": "none",
    b"01234567": "octal digit, digit, hex digit, identifier byte",
    b"89": "digit, hex digit, identifier byte",
    b"ABCDEFabcdef": "hex digit, letter, identifier start, identifier byte",
    b"GHZghz": "letter, identifier start, identifier byte",
    b"_\x80\xa0\xc3\xa9\xff": "identifier start, identifier byte",
    b"'\"`.{}?</#": "sign",
}


class Classes(unittest.TestCase):
    def test_by_hand(self):
        for some, words in BY_HAND.items():
            for byte in some:
                self.assertEqual(classes_of(byte).words, words, hex(byte))

    def test_all_that_are_in_a_class(self):
        expected = {
            Class.BLANK: rb"[ \t]",
            Class.OCTAL: rb"[0-7]",
            Class.DIGIT: rb"[0-9]",
            Class.HEX: rb"[0-9A-Fa-f]",
            Class.LETTER: rb"[A-Za-z]",
            Class.START: rb"[A-Za-z_\x80-\xff]",
            Class.IDENTIFIER: rb"[0-9A-Za-z_\x80-\xff]",
            Class.SIGN: rb"['\"`.{}?</#]",
        }
        self.assertEqual(list(expected), list(Class))
        for byte in range(256):
            flags = [flag for flag, pattern in expected.items() if re.fullmatch(pattern, bytes([byte]))]
            self.assertEqual(classes_of(byte), sum(flags), hex(byte))

    def test_the_page_for_transcribers_says_the_same(self):
        line = re.compile(r"- 0x(\w\w)(?: to 0x(\w\w))?, .*: ([a-z, ]+)")
        found = [line.fullmatch(text) for text in (ROOT / "docs/BYTES.md").read_text(encoding="utf-8").splitlines()]
        told = {}
        for first, last, words in (one.groups() for one in found if one):
            told.update({byte: words for byte in range(int(first, 16), int(last or first, 16) + 1)})
        self.assertEqual(told, {byte: classes_of(byte).words for byte in range(256)})

    def test_numbers_and_names_are_those_of_the_headers(self):
        header, words = ((ROOT / "include" / name).read_text() for name in ("puretakoi.h", "puretakoi_words.h"))
        numbers = re.findall(r"#define PURETAKOI_CLASS_(\w+) (\d+)", header)
        self.assertEqual([(flag.name, str(int(flag))) for flag in Class], numbers)
        names = re.findall(r'case PURETAKOI_CLASS_(\w+): return "(.*)";', words)
        self.assertEqual([(flag.name, words) for flag, words in CLASS_NAMES.items()], names)

    def test_what_is_no_byte_is_told(self):
        for number in (-1, 256, 1 << 40):
            with self.assertRaises(ValueError) as raised:
                classes_of(number)
            self.assertEqual(str(raised.exception), f"{number} is no byte: name one from 0 to 255")
        for other in ("_", b"_", None):
            self.assertRaises(TypeError, classes_of, other)

    def test_an_older_library_is_told(self):
        with mock.patch.object(puretakoi_library, "library", types.SimpleNamespace(_name="old.so")):
            with self.assertRaises(RuntimeError) as raised:
                classes_of(0)
        self.assertEqual(str(raised.exception), "the library old.so is older than this module: install both together")


if __name__ == "__main__":
    unittest.main()
