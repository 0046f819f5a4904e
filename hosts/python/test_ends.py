"""Tests of where steps ended: ends, literals as they are written, record files old and new."""

import ctypes
import re
import struct
import unittest

import puretakoi
from puretakoi import Found, Kind, Reason, Refusal, Token, TokenList, file_to_list, find, list_to_file, records, tokens
from test_puretakoi import BREAKS, ROOT, SHEET, SHEETS, read_in_parts, record_list

# The records of a script by hand, eight numbers each, and its pool.
SCRIPT = b"<?php 'k\\'' + 1_0;"
NUMBERS = [2, 0, 1, 1, 0, 0, 5, 5] + [17, 0, 1, 7, 6, 5, 2, 11] + [19, 0, 1, 15, 14, 7, 2, 17]
POOL = b"<?phpk'10"

# The same as older writers made it: where the steps ended is not stated.
OLD = [0 if at % 8 == 7 else number for at, number in enumerate(NUMBERS)]

# Each form of a literal and of a comment, with what is none between them.
FORMS = b"a <?php 'it\\'s' . \"b\\n\\\"\" . 1_0 + 0x1F + .5e3 // c\r\n# d\n/* e\n */ kerb ?> 'f' <?= 7"
LITERALS = [b"'it\\'s'", b'"b\\n\\""', b"1_0", b"0x1F", b".5e3", b"// c\r", b"# d", b"/* e\n */", b"7"]

# What has no literal in it.
OTHERS = (b"'a' 1", b"<?php $a->b . kerb", b'<?php "a $b";', b"<?php `a`;", b"<?php <<<A\n'1'\nA;", SHEET, BREAKS)


def scripts():
    """All scripts that are read here, with both readings."""
    for script in [sheet.read_bytes() for sheet in SHEETS] + [SCRIPT, FORMS, SHEET, BREAKS, *OTHERS]:
        for sheet in (False, True):
            try:
                yield script, TokenList(script, sheet=sheet)
            except Refusal:
                pass


def ends(script, sheet=False):
    """Position and end of each token."""
    return [(token.position, token.end) for token in tokens(script, sheet=sheet)]


def refused_with(call, *words):
    """The number with which a call is refused."""
    try:
        call(*words)
    except Refusal as refusal:
        return refusal.number
    return 0


class Ends(unittest.TestCase):
    def test_by_hand(self):
        self.assertEqual(ends(SCRIPT), [(0, 5), (6, 11), (14, 17)])
        self.assertEqual(ends(b'<?php "$a \\u{e9}\\n";'), [(0, 5), (6, 7), (7, 9), (9, 19), (9, 19)])
        self.assertEqual(ends(b"<?= `a$b`;"), [(0, 3), (5, 8), (5, 8), (8, 9)])

    def test_all_tokens_of_a_step_have_one(self):
        self.assertEqual(ends(b"a<?php"), [(0, 6), (1, 6)])
        for sheet in (False, True):
            self.assertEqual(ends(SHEET, sheet), [(0, 5), (15, 31), (15, 31)])

    def test_it_is_where_the_session_stood_after_the_step(self):
        count = 0
        for script, read in scripts():
            stated = [token.end for token in read if script]
            under = [read.at(token.position) for token in read if script]
            self.assertEqual([found.token.end for found in under], [found.passed.stop for found in under])
            self.assertEqual(stated, sorted(stated))
            self.assertTrue(all(token.end <= len(script) for token in read if script))
            count += len(stated)
        self.assertGreater(count, 400)

    def test_of_no_bytes_it_is_not_stated(self):
        self.assertEqual([token.end for token in tokens(b"")], [None])
        self.assertEqual(TokenList(b"").list, [1, 0, 1, 1, 0, 0, 0, 0])
        self.assertEqual((TokenList(b"").at(0).token.end, TokenList(b"").cut(0)), (None, None))

    def test_of_the_most_bytes(self):
        self.assertEqual(ends(b"<?php '" + b"a" * 65528 + b"'"), [(0, 5), (6, 65536)])
        self.assertEqual(ends(b"a" * 65536), [(0, 65536)])

    def test_parts_of_any_size(self):
        for size in (1, 2, 3, 7, 64):
            self.assertEqual(read_in_parts(FORMS, size, True), tokens(FORMS, sheet=True), size)

    def test_what_was_read_before_a_refusal_has_it(self):
        with self.assertRaises(Refusal) as raised:
            tokens(b"<?php\n1 'kerb")
        self.assertEqual([token.end for token in raised.exception.tokens], [5, 7])


class Written(unittest.TestCase):
    def test_by_hand(self):
        self.assertEqual([token.written(SCRIPT) for token in tokens(SCRIPT)], [None, b"'k\\''", b"1_0"])
        written = [token.written(FORMS) for token in tokens(FORMS)]
        self.assertEqual([text for text in written if text is not None], LITERALS)

    def test_each_byte_of_a_literal_gives_it_and_no_other_does(self):
        at, read = 0, TokenList(FORMS)
        for literal in LITERALS:
            start = FORMS.index(literal, at)
            self.assertEqual({read.cut(byte) for byte in range(at, start)} - {None}, set())
            at = start + len(literal)
            self.assertEqual({read.cut(byte) for byte in range(start, at)}, {literal})
        self.assertEqual([read.cut(byte) for byte in (-1, at, 10**30)], [None] * 3)

    def test_what_is_no_literal(self):
        for script in OTHERS:
            read = TokenList(script, sheet=True)
            self.assertEqual({read.cut(byte) for byte in range(len(script) + 2)}, {None}, script)

    def test_it_reads_as_it_did(self):
        count = 0
        for script, read in scripts():
            for token in read:
                written = token.written(script)
                self.assertEqual(written is not None, token.kind >= 17)
                if written is not None:
                    again = tokens(b"<?php " + written)
                    self.assertEqual([t[:2] + t[5:] for t in again[1:]], [(*token[:2], token.value, 6 + len(written))])
                    count += 1
        self.assertGreater(count, 150)

    def test_an_end_that_is_not_stated_or_beyond_the_script(self):
        token = tokens(SCRIPT)[1]
        self.assertIsNone(token._replace(end=None).written(SCRIPT))
        self.assertIsNone(Token(*token[:6]).written(SCRIPT))
        self.assertEqual(token.written(bytearray(SCRIPT[:11])), b"'k\\''")
        self.assertIsNone(token.written(SCRIPT[:10]))
        self.assertIsNone(token._replace(end=5).written(SCRIPT))


class Files(unittest.TestCase):
    def test_a_new_file(self):
        read, file = TokenList(SCRIPT), struct.pack("<24I", *NUMBERS)
        self.assertEqual((read.list, read.pool), (NUMBERS, POOL))
        self.assertEqual((list_to_file(read.list), file_to_list(file)), (file, NUMBERS))
        self.assertEqual(records(file_to_list(file), POOL), list(read))

    def test_an_old_file(self):
        file = struct.pack("<24I", *OLD)
        self.assertEqual((list_to_file(OLD), file_to_list(file)), (file, OLD))
        read = records(file_to_list(file), POOL)
        self.assertEqual(read, [token._replace(end=None) for token in tokens(SCRIPT)])
        self.assertEqual([token.written(SCRIPT) for token in read], [None] * 3)
        self.assertEqual([find(file_to_list(file), 3, byte) for byte in (0, 9)], [Found(0, 2), Found(1, 2)])

    def test_the_sheets_there_and_back(self):
        for script, read in scripts():
            file = list_to_file(read.list)
            self.assertEqual((len(file), file_to_list(file)), (32 * len(read), read.list))
            self.assertEqual(records(read.list, read.pool), list(read))
            unstated = [0 if at % 8 == 7 else number for at, number in enumerate(read.list)]
            old = b"".join(file[at : at + 28] + bytes(4) for at in range(0, len(file), 32))
            self.assertEqual((file_to_list(old), list_to_file(unstated)), (unstated, old))
            self.assertEqual(records(unstated, read.pool), [token._replace(end=None) for token in read])

    def test_no_records(self):
        self.assertEqual((list_to_file([]), file_to_list(b""), records([], b"")), (b"", [], []))
        self.assertEqual(records(NUMBERS[:23], POOL), tokens(SCRIPT)[:2])

    def test_refusals(self):
        self.assertEqual(refused_with(list_to_file, NUMBERS[:23]), Reason.OUT_OF_PLACE)
        for size in (1, 31, 33, 63):
            self.assertEqual(refused_with(file_to_list, bytes(size)), Reason.OUT_OF_PLACE)
        full, large = (ctypes.c_uint32 * (8 * 65537))(), (ctypes.c_uint32 * (8 * 65538))()
        self.assertEqual(refused_with(list_to_file, full), 0)
        self.assertEqual(refused_with(list_to_file, large), Reason.TOO_LARGE)
        self.assertEqual(refused_with(file_to_list, bytes(32 * 65538)), Reason.TOO_LARGE)
        for number in (-1, 2**32):
            with self.assertRaises(ValueError):
                list_to_file([number] * 8)

    def test_what_is_no_list_of_this_pool(self):
        said = "a value ends at byte 9 of the pool, which has 8: give the pool that belongs to the list"
        with self.assertRaises(ValueError) as raised:
            records(NUMBERS, POOL[:8])
        self.assertEqual(str(raised.exception), said)
        for kind in (0, 22, 2**32 - 1):
            with self.assertRaises(ValueError) as raised:
                records([kind, *NUMBERS[1:]], POOL)
            said = f"a record's kind is {kind}, and no token's: give a list that the library wrote"
            self.assertEqual(str(raised.exception), said)


class Finds(unittest.TestCase):
    def test_the_end_of_what_is_found(self):
        expected = [Found(0, 2, 5), Found(1, 2, 11), Found(1, 2, 11), Found(2, 2, 17)]
        self.assertEqual([find(NUMBERS, 3, byte) for byte in (0, 6, 13, 14)], expected)
        self.assertEqual(find(NUMBERS, 0, 9), Found(None, 0, None))
        self.assertEqual(find(NUMBERS[8:], 1, 5), Found(None, 1, None))
        self.assertEqual(find([0] * 7 + [2**32 - 1], 1, 0), Found(0, 1, 2**32 - 1))

    def test_what_a_call_writes(self):
        def call(count, byte, found):
            lent = (ctypes.c_uint32 * len(found))(*found)
            numbers = (ctypes.c_uint32 * 24)(*NUMBERS)
            given = puretakoi._library.puretakoi_find(numbers, 24, count, byte, lent, len(found))
            self.assertEqual(list(numbers), NUMBERS)
            return given, list(lent)

        self.assertEqual(call(3, 9, [7] * 3), (0, [1, 1, 2]))
        self.assertEqual(call(3, 9, [7] * 4), (0, [1, 1, 2, 11]))
        self.assertEqual(call(3, 9, [7] * 6), (0, [1, 1, 2, 11, 7, 7]))
        self.assertEqual(call(0, 9, [7] * 5), (0, [0, 0, 0, 0, 7]))
        self.assertEqual(call(4, 9, [7] * 4), (12, [7] * 4))

    def test_the_numbers_are_those_of_the_header(self):
        numbers = dict(re.findall(r"#define PURETAKOI_(\w+) (\d+)", (ROOT / "include/puretakoi.h").read_text()))
        said = [numbers[name] for name in ("RECORD", "RECORD_END", "FOUND_ENDED", "FOUND_END")]
        self.assertEqual(said, [str(puretakoi._RECORD), "7", str(puretakoi._FOUND), "3"])
        self.assertEqual(find(record_list([0])[:7] + [9], 1, 0).end, 9)


if __name__ == "__main__":
    unittest.main()
