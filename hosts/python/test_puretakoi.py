"""Tests of the Python module, on the library that it finds: python3 -m unittest, with those of test_ends.py."""

import ctypes
import re
import subprocess
import sys
import threading
import unittest
from pathlib import Path

import puretakoi
from puretakoi import Block, Found, Kind, Reason, Refusal, Stream, Token, TokenList, blocks, find, tokens

ROOT = Path(__file__).resolve().parents[2]
SHEETS = sorted(ROOT.glob("sheets/*.php")) + sorted(ROOT.glob("sheets/faulty/*.php"))

# The worked sheet o of document 01, in a script.
SHEET = b"<?php <<<'EOT'\n  ab\n   c\n\n  EOT;"

# Breaks of two bytes, and a row that ends in a CR of its own.
BREAKS = b"<?php <<<'A'\r\n\ta\r\r\n\r\n\tA;"


def sheet_tokens(rows):
    """The tokens of SHEET, whose reading gives these rows."""
    return [
        Token(Kind.OPEN_TAG_FULL, 0, 1, 1, 0, b"<?php", 5),
        Token(Kind.STRING_PART, 0, 2, 1, 15, rows, 31),
        Token(Kind.END_DOC_STRING_SPACE, 2, 2, 1, 15, b"EOT", 31),
    ]


def read_in_parts(script, size, sheet):
    """The tokens of a script that is fed in parts of a size."""
    stream, read = Stream(sheet=sheet), []
    for at in range(0, len(script), size):
        read += stream.feed(script[at : at + size])
    return read + stream.finish()


def stored_rows(script):
    """What the program rows would print, by this module."""
    try:
        read, last = tokens(script), f"end {len(script)}"
    except Refusal as refusal:
        place = f"{refusal.line} {refusal.column} {refusal.position}"
        read, last = refusal.tokens, f"refused {int(refusal.number)} {place}"
    lines = [f"{int(t.kind)} {t.line} {t.column} {t.position} {t.detail} {len(t.value)} {t.end or 0}" for t in read]
    return "\n".join(lines + [last]) + "\n"


def stored_relief(script):
    """What hosts/c/example.c would print, by this module."""
    printed = b""
    try:
        for block in blocks(script):
            printed += b"\n".join(block.rows) + b"\n"
    except Refusal as refusal:
        printed += b"refused %d at %d:%d\n" % (refusal.number, refusal.line, refusal.column)
    return printed


def record_list(positions):
    """A list of records that stand at these positions."""
    return [number for position in positions for number in (0, 0, 0, 0, position, 0, 0, 0)]


def walked(positions, byte):
    """The last number whose position is at or before a byte, by a look at each."""
    return max((number for number, position in enumerate(positions) if position <= byte), default=None)


def halved(positions, byte):
    """What the search is fixed to: the record that it finds, and its looks."""
    low, high, looks = 0, len(positions), 0
    while low < high:
        middle, looks = (low + high) // 2, looks + 1
        low, high = (middle + 1, high) if positions[middle] <= byte else (low, middle)
    return Found(low - 1 if low else None, looks)


def cells(script):
    """Row and cell of each byte that has one of them, by what is under it."""
    read = TokenList(script, sheet=True)
    under = ((byte, read.at(byte)) for byte in range(len(script) + 2))
    return {byte: (found.row, found.cell) for byte, found in under if found.row or found.cell}


class Tokens(unittest.TestCase):
    def test_both_readings(self):
        self.assertEqual(tokens(SHEET), sheet_tokens(b"  ab\n   c\n"))
        self.assertEqual(tokens(SHEET, sheet=True), sheet_tokens(b"ab\n c\n"))

    def test_an_interpolation(self):
        expected = [
            (Kind.OPEN_TAG_FULL, 1, b"<?php"),
            (Kind.STRING_PART, 7, b""),
            (Kind.VARIABLE, 8, b"$a"),
            (Kind.STRING_PART, 10, b" \xc3\xa9\n"),
            (Kind.DOUBLE_QUOTE, 10, b'"'),
        ]
        read = [(t.kind, t.column, t.value) for t in tokens(b'<?php "$a \\u{e9}\\n";')]
        self.assertEqual(read, expected)

    def test_no_bytes_and_the_most(self):
        self.assertEqual(tokens(b""), [Token(Kind.INLINE_HTML, 0, 1, 1, 0, b"")])
        self.assertEqual(tokens(b"a" * 65536)[0].value, b"a" * 65536)
        with self.assertRaises(Refusal) as raised:
            tokens(b"a" * 65537)
        self.assertEqual((raised.exception.number, raised.exception.line), (Reason.TOO_LARGE, 1))

    def test_more_tokens_than_are_read_at_once(self):
        read = tokens(b"<?php " + b"1;" * 5000)
        self.assertEqual([t.position for t in read[1:]], list(range(6, 10006, 2)))

    def test_other_bytes_are_taken_and_text_is_not(self):
        self.assertEqual(tokens(bytearray(b"kerb"))[0].value, b"kerb")
        with self.assertRaises(TypeError):
            tokens("kerb")

    def test_the_sheets_as_rows_prints_them(self):
        self.assertGreater(len(SHEETS), 9)
        for sheet in SHEETS:
            with self.subTest(sheet.name):
                self.assertEqual(stored_rows(sheet.read_bytes()), sheet.with_suffix(".rows").read_text())


class Refusals(unittest.TestCase):
    def test_place_words_and_what_was_read(self):
        with self.assertRaises(Refusal) as raised:
            tokens(b"<?php\n1 'kerb")
        refusal = raised.exception
        self.assertEqual((refusal.number, refusal.name), (1, "unexpected end of file"))
        self.assertEqual((refusal.line, refusal.column, refusal.position), (2, 8, 13))
        self.assertEqual([t.value for t in refusal.tokens], [b"<?php", b"1"])
        said = "refused 1 at 2:8: something is still open where the script ends."
        self.assertEqual(str(refusal), said + " Close the string, the text block, the command or the comment.")

    def test_numbers_and_words_are_those_of_the_headers(self):
        numbers = dict(re.findall(r"#define PURETAKOI_(\w+) (\d+)", (ROOT / "include/puretakoi.h").read_text()))
        self.assertEqual({f"KIND_{k.name}": str(int(k)) for k in Kind}.items() - numbers.items(), set())
        self.assertEqual({r.name: str(int(r)) for r in Reason}.items() - numbers.items(), set())
        self.assertEqual((len(Kind), len(Reason)), (sum(name.startswith("KIND_") for name in numbers), 13))
        words = (ROOT / "include/puretakoi_words.h").read_text().replace("\\\\", "\\")
        for place, function in enumerate(("refusal_name", "refusal_meaning", "refusal_advice")):
            body = words.split(f"puretakoi_{function}(")[1].split("\n}\n")[0]
            in_c = dict(re.findall(r'case PURETAKOI_(\w+):\s+return "(.*)";', body))
            here = {reason.name: said[place] for reason, said in puretakoi._words.WORDS.items()}
            self.assertEqual(here, in_c)

    def test_the_version_is_the_headers(self):
        defined = re.search(r'#define PURETAKOI_VERSION "(.*)"', (ROOT / "include/puretakoi.h").read_text())
        self.assertEqual(puretakoi.__version__, defined.group(1))


class Streams(unittest.TestCase):
    def test_parts_of_any_size(self):
        for size in (1, 2, 3, 7, 64):
            self.assertEqual(read_in_parts(SHEET, size, True), sheet_tokens(b"ab\n c\n"), size)

    def test_what_is_open_waits(self):
        stream = Stream()
        self.assertEqual([t.value for t in stream.feed(b"<?php 1; 'ker")], [b"<?php", b"1"])
        self.assertEqual([t.value for t in stream.feed(b"b'")], [b"kerb"])
        self.assertEqual((stream.finish(), stream.finish()), ([], []))
        with self.assertRaises(ValueError):
            stream.feed(b";")

    def test_the_text_behind_the_last_tag_comes_once(self):
        stream = Stream()
        self.assertEqual(stream.feed(b"row"), [])
        self.assertEqual([t.value for t in stream.finish()], [b"row"])
        self.assertEqual(stream.finish(), [])

    def test_a_refusal_comes_again(self):
        stream = Stream()
        stream.feed(b"<?php 'kerb")
        for _ in range(2):
            with self.assertRaises(Refusal) as raised:
                stream.finish()
            self.assertEqual((raised.exception.number, raised.exception.tokens), (1, []))

    def test_streams_in_threads(self):
        results = []

        def read():
            results.append(all(read_in_parts(SHEET, 1, True) == sheet_tokens(b"ab\n c\n") for _ in range(20)))

        threads = [threading.Thread(target=read) for _ in range(4)]
        for thread in threads:
            thread.start()
        for thread in threads:
            thread.join()
        self.assertEqual(results, [True] * 4)

    def test_a_long_text_is_looked_at_when_it_has_doubled(self):
        block, stream = b"<?php <<<'EOT'\n" + b"kerb\n" * 1000, Stream(sheet=True)
        self.assertEqual([token.kind for token in stream.feed(block)], [Kind.OPEN_TAG_FULL])
        self.assertEqual(stream.feed(b"EOT;\n"), [])
        self.assertEqual([len(token.value) for token in stream.feed(b" " * 5000)], [4999, 3])
        self.assertEqual(stream.finish(), [])

    def test_a_short_text_is_looked_at_at_once(self):
        stream = Stream(sheet=True)
        stream.feed(b"<?php <<<'EOT'\n" + b"kerb\n" * 100)
        self.assertEqual([len(token.value) for token in stream.feed(b"EOT;\n")], [499, 3])


class Blocks(unittest.TestCase):
    def test_rows_without_the_closing_lines_indentation(self):
        self.assertEqual(list(blocks(SHEET)), [Block(2, b"EOT", [b"ab", b" c", b""])])

    def test_no_row_and_an_empty_row(self):
        script = b"<?php <<<'A'\nA; <<<'B'\n\nB;"
        self.assertEqual(list(blocks(script)), [Block(2, b"A", []), Block(3, b"B", [b""])])

    def test_breaks_of_two_bytes(self):
        self.assertEqual(list(blocks(b"<?php <<<'A'\r\nb\r\n\r\nc\r\nA;"))[0].rows, [b"b", b"", b"c"])

    def test_heredocs_and_strings_are_none(self):
        self.assertEqual(list(blocks(b"<?php <<<A\nb\nA; 'c'; \"d\"; `e`;")), [])

    def test_blocks_before_a_refusal(self):
        found = blocks(b"<?php <<<'A'\nb\nA; <<<'B'\nc\n B;")
        self.assertEqual(next(found).rows, [b"b"])
        with self.assertRaises(Refusal) as raised:
            next(found)
        self.assertEqual((raised.exception.number, raised.exception.line), (Reason.STRAY_INDENTATION, 4))

    def test_the_sheets_as_php_prints_them(self):
        for sheet in SHEETS:
            with self.subTest(sheet.name):
                self.assertEqual(stored_relief(sheet.read_bytes()), sheet.with_suffix(".relief").read_bytes())


class Finds(unittest.TestCase):
    def test_lists_as_the_search_is_fixed(self):
        for positions in ([], [0], [3], [0, 7, 7, 9], [5, 1, 9], [9, 1, 5, 0], [4] * 8, list(range(0, 99, 3))):
            for byte in range(100):
                found = find(record_list(positions), len(positions), byte)
                self.assertEqual(found, halved(positions, byte), (positions, byte))

    def test_by_hand(self):
        self.assertEqual(find(record_list([5, 1, 9]), 3, 3), Found(1, 2))
        self.assertEqual(find(record_list([0, 7, 7, 9]), 4, 8), Found(2, 2))
        self.assertEqual(find(record_list([3, 4]), 2, 2), Found(None, 2))
        self.assertEqual(find([], 0, 2), Found(None, 0))

    def test_only_the_first_records_count(self):
        self.assertEqual(find(record_list([0, 2, 4]), 2, 9), Found(1, 1))
        self.assertEqual(find(record_list([0, 2, 4]) + [1] * 7, 3, 9), Found(2, 2))
        self.assertEqual(find(record_list([0, 2, 4]), 0, 9), Found(None, 0))

    def test_no_more_than_17_looks(self):
        positions = range(65537)
        numbers = (ctypes.c_uint32 * (8 * 65537))(*record_list(positions))
        found = {byte: find(numbers, 65537, byte) for byte in (0, 1, 2, 4095, 32767, 32768, 65535, 65536, 10**30)}
        self.assertEqual(found, {byte: halved(positions, byte) for byte in found})
        self.assertEqual((found[0], found[65536], found[10**30]), (Found(0, 17), Found(65536, 16), Found(65536, 16)))
        self.assertEqual(find(numbers, 65535, 0), Found(0, 16))

    def test_refusals(self):
        full, large = (ctypes.c_uint32 * (8 * 65538 - 1))(), (ctypes.c_uint32 * (8 * 65538))()
        self.assertEqual(find(full, 65537, 0), Found(65536, 16))
        cases = [(large, 0, 11), (large, 65539, 11), (full, 65538, 12)]
        cases += [([0] * 15, 2, 12), ([], 1, 12), ([], 2**64, 12)]
        for numbers, count, refusal in cases:
            with self.assertRaises(Refusal) as raised:
                find(numbers, count, 0)
            place = raised.exception.line, raised.exception.column, raised.exception.position
            self.assertEqual((raised.exception.number, place), (refusal, (1, 1, 0)), (len(numbers), count))
        for count, byte in ((-1, 0), (0, -1)):
            with self.assertRaises(ValueError):
                find([], count, byte)

    def test_a_list_has_numbers_of_32_bits(self):
        self.assertEqual(find(record_list([4, 2**32 - 1]), 2, 2**32 - 1), Found(1, 1))
        for number in (2**32, 2**32 + 4, -1, 10**30):
            for numbers in ([number] * 8, [0] * 8 + [number]):
                with self.assertRaises(ValueError) as raised:
                    find(numbers, 1, 5)
                self.assertEqual(str(raised.exception), "a list's number is not from 0 to 4294967295")

    def test_what_a_call_writes(self):
        def call(numbers, count, found):
            lent = (ctypes.c_uint32 * len(found))(*found)
            given = puretakoi._library.puretakoi_find(numbers, len(numbers), count, 3, lent, len(found))
            return given, list(lent)

        numbers = (ctypes.c_uint32 * 24)(*record_list([5, 1, 9]))
        large = (ctypes.c_uint32 * (8 * 65538))()
        self.assertEqual(call(numbers, 3, [7] * 5), (0, [1, 1, 2, 0, 7]))
        self.assertEqual(call(numbers, 1, [7] * 3), (0, [0, 0, 1]))
        self.assertEqual(call(numbers, 4, [7] * 3), (12, [7] * 3))
        self.assertEqual(call(large, 0, [7] * 3), (11, [7] * 3))
        for found in ([], [7] * 2):
            self.assertEqual(call(large, 65539, found), (10, found))
        self.assertEqual(list(numbers), record_list([5, 1, 9]))


class Fingers(unittest.TestCase):
    def test_it_has_all_tokens(self):
        read = TokenList(SHEET, sheet=True)
        self.assertEqual((list(read), len(read)), (sheet_tokens(b"ab\n c\n"), 3))
        self.assertEqual((read[-1], read[:1]), (sheet_tokens(b"")[2], sheet_tokens(b"")[:1]))
        self.assertEqual(list(TokenList(SHEET)), tokens(SHEET))

    def test_every_byte_of_the_sheets(self):
        count = 0
        for script in [sheet.read_bytes() for sheet in SHEETS] + [SHEET, b"a <?= 1 ?>\nb", b'<?php "{$a}$b[0] c";']:
            for sheet in (False, True):
                try:
                    expected = tokens(script, sheet=sheet)
                except Refusal:
                    continue
                positions, read = [token.position for token in expected], TokenList(script, sheet=sheet)
                for byte in range(len(script) + 3):
                    under, number, count = read.at(byte), walked(positions, byte), count + 1
                    self.assertEqual((under.number, under.token), (number, expected[number]), (script, byte))
                    self.assertEqual(under.looks, halved(positions, byte).looks)
        self.assertGreater(count, 15000)

    def test_inside_passed_text_and_past_the_end(self):
        script = b"<?php kerb + 'a' ;"
        read = TokenList(script)
        under = [read.at(byte) for byte in range(20)]
        self.assertEqual([found.number for found in under], [0] * 13 + [1] * 7)
        self.assertEqual([found.inside for found in under], [True] * 5 + [False] * 8 + [True] * 3 + [False] * 4)
        self.assertEqual([found.past_end for found in under], [False] * 18 + [True] * 2)
        self.assertEqual((under[3].passed, under[17].passed), (range(0, 5), range(13, 16)))
        self.assertEqual({(found.row, found.cell) for found in under}, {(None, None)})
        self.assertEqual(read.at(10**30)[:3], (under[17].token, 1, 1))

    def test_of_equal_positions_the_last(self):
        read = TokenList(b"<?php `a$b`;")
        self.assertEqual([token.position for token in read], [0, 7, 7, 10])
        under = read.at(7)
        self.assertEqual((under.number, under.token.value, under.passed, under.inside), (2, b"$b", range(7, 10), True))
        self.assertEqual(TokenList(SHEET).at(15)[1:4], (2, 2, range(15, 31)))

    def test_tokens_of_one_step_with_a_place_each(self):
        read = TokenList(b"a<?php")
        self.assertEqual([read.at(byte).number for byte in range(6)], [0, 1, 1, 1, 1, 1])
        self.assertEqual({read.at(byte).passed for byte in range(6)}, {range(6)})

    def test_no_bytes_and_no_token(self):
        under = TokenList(b"").at(0)
        self.assertEqual((under.number, under.token.kind, under.looks), (0, Kind.INLINE_HTML, 1))
        self.assertEqual((under.passed, under.inside, under.past_end), (range(0), False, True))
        self.assertIsNone(TokenList(b"kerb").at(-1))

    def test_many_tokens(self):
        read = TokenList(b'<?php "' + b" $a" * 21842 + b'"')
        self.assertEqual((len(read), read.at(0).looks, read.at(65533)[1:3]), (43686, 16, (43685, 15)))

    def test_a_refused_script(self):
        for script, number, values in ((b"<?php\n1 'kerb", 1, [b"<?php", b"1"]), (b"a" * 65537, 11, [])):
            with self.assertRaises(Refusal) as raised:
                TokenList(script)
            self.assertEqual((raised.exception.number, [t.value for t in raised.exception.tokens]), (number, values))

    def test_rows_and_cells_by_hand(self):
        in_rows = {15: (1, None), 16: (1, None), 17: (1, 1), 18: (1, 2), 19: (1, None), 20: (2, None), 21: (2, None)}
        in_rows.update({22: (2, 1), 23: (2, 2), 24: (2, None), 25: (3, None)})
        self.assertEqual(cells(SHEET), in_rows)
        in_rows = {14: (1, None), 15: (1, 1), 16: (1, 2), 17: (1, None), 18: (1, None), 19: (2, None), 20: (2, None)}
        self.assertEqual(cells(BREAKS), in_rows)
        in_rows = {13: (1, None), 14: (1, None), 15: (2, None), 16: (2, None), 17: (2, 1), 18: (2, 2), 19: (2, None)}
        self.assertEqual(cells(b"<?php <<<'A'\n \n    \n  A;"), in_rows)

    def test_no_rows_elsewhere(self):
        for script in (b"<?php <<<'A'\nA;", b"<?php <<<A\n b\n A;", b"<?php 'a\nb';", b"a\nb"):
            self.assertEqual(cells(script), {}, script)
        self.assertEqual({found[6:] for found in map(TokenList(SHEET).at, range(32))}, {(None, None)})

    def test_cells_are_those_of_the_blocks(self):
        for script in [sheet.read_bytes() for sheet in SHEETS[:5]] + [SHEET, BREAKS]:
            read, seen = TokenList(script, sheet=True), {}
            for byte, under in enumerate(map(read.at, range(len(script)))):
                if under.cell:
                    seen.setdefault(under.number, {})[under.row, under.cell] = script[byte]
            rows = [enumerate(block.rows, 1) for block in blocks(script)]
            in_rows = [{(r, c): cell for r, row in of_block for c, cell in enumerate(row, 1)} for of_block in rows]
            self.assertEqual(list(seen.values()), in_rows)


class Loading(unittest.TestCase):
    def test_a_library_that_is_missing_is_told(self):
        words = "import os; os.environ['PURETAKOI_LIBRARY'] = '/no/library.so'; import puretakoi"
        folder = Path(puretakoi.__file__).parent
        ended = subprocess.run([sys.executable, "-c", words], cwd=folder, capture_output=True, text=True)
        last = ended.stderr.splitlines()[-1]
        self.assertTrue(last.startswith("ImportError: the library /no/library.so can't be loaded ("), last)
        self.assertTrue(last.endswith("): run hosts/install, or set PURETAKOI_LIBRARY to where it is"), last)


if __name__ == "__main__":
    unittest.main()
