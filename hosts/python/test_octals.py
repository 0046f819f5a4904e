"""Tests of octal escapes over 377, the Rust's refusal or the manual's byte, and of the choices as numbers."""

import ctypes
import re
import unittest
from unittest import mock

import puretakoi
from puretakoi import Block, Kind, Reason, Refusal, Stream, Token, TokenList, blocks, list_to_file, records, tokens
from test_puretakoi import ROOT

# An escape over 377 in a literal, after an interpolation and in a heredoc, and its tokens by the manual's choice.
SCRIPT = b'<?php "\\400"; "$a\\777"; <<<A\n\\400\\777\nA;'
READ = [
    Token(Kind.OPEN_TAG_FULL, 0, 1, 1, 0, b"<?php", 5),
    Token(Kind.LITERAL_DOUBLE_QUOTED_STRING, 0, 1, 7, 6, b"\x00", 12),
    Token(Kind.STRING_PART, 0, 1, 15, 14, b"", 15),
    Token(Kind.VARIABLE, 0, 1, 16, 15, b"$a", 17),
    Token(Kind.STRING_PART, 0, 1, 18, 17, b"\xff", 22),
    Token(Kind.DOUBLE_QUOTE, 0, 1, 18, 17, b'"', 22),
    Token(Kind.STRING_PART, 0, 2, 1, 29, b"\x00\xff", 39),
    Token(Kind.END_DOC_STRING_NONE, 0, 2, 1, 29, b"A", 39),
]

# Each of the three places alone: refusal and place, right after the third digit, and how many tokens are read before.
REFUSED = {
    b'<?php "\\400";': (3, 1, 12, 11, 1),
    b'<?php "$a\\777";': (3, 1, 14, 13, 3),
    b"<?php <<<A\n\\400\nA;": (3, 2, 5, 15, 1),
}

# A sheet whose legend has such an escape.
SHEET = b"<?php <<<'A'\n  .\n  A; \"\\501\"; <<<'B'\n #\n B;"

# What is no choice for octal escapes.
WRONG = ("Rust", "MANUAL", "php", "", None, True, 2, b"manual", ["manual"])

# Numbers with a bit that is no flag.
NO_CHOICES = (4, 5, 8, 0x80000000, 0xFFFFFFFF)

# The library, for calls that the module has not.
LIBRARY = ctypes.CDLL(puretakoi._library._name)


def values(text, octal="manual"):
    """The values of a script's tokens after the tag."""
    return [token.value for token in tokens(b"<?php " + text, octal=octal)[1:]]


def place(refusal):
    """Number and place of a refusal."""
    return int(refusal.number), refusal.line, refusal.column, refusal.position


def refused(call, *words, **choices):
    """Number and place of a call's refusal, and how many tokens were read before; None if it is not refused."""
    try:
        call(*words, **choices)
    except Refusal as refusal:
        return (*place(refusal), len(refusal.tokens))
    return None


def read_parts(parts, octal):
    """The tokens of a script that comes in parts, and number and place of its refusal, if it has one."""
    stream, read = Stream(octal=octal), []
    try:
        for part in parts:
            read += stream.feed(part)
        return read + stream.finish(), None
    except Refusal as refusal:
        return read + refusal.tokens, place(refusal)


class Manual(unittest.TestCase):
    def test_in_double_quotes_after_an_interpolation_and_in_a_heredoc(self):
        self.assertEqual(tokens(SCRIPT, octal="manual"), READ)

    def test_each_escape_is_its_low_eight_bits(self):
        for number in range(0o400, 0o1000):
            escape, byte = b"\\%o" % number, bytes([number - 256])
            expected = [b"a" + byte + b"b", b"", b"$c", byte + b"d", b'"', b"e" + byte + b"f", b"A"]
            script = b'"a%sb"; "$c%sd"; <<<A\ne%sf\nA;' % (escape, escape, escape)
            self.assertEqual(values(script), expected, escape)

    def test_at_most_three_digits(self):
        self.assertEqual(values(b'"\\4000"; "\\7777"; "\\0400"; "\\48"'), [b"\x000", b"\xff7", b" 0", b"\x048"])

    def test_up_to_377_both_choices_read_the_same(self):
        for octal in ("rust", "manual"):
            for number in range(0o400):
                self.assertEqual(values(b'"\\%03o"' % number, octal), [bytes([number])], octal)

    def test_the_byte_begins_nothing(self):
        self.assertEqual(values(b'"\\442"; "\\444a"; "a\\534n"'), [b'"', b"$a", b"a\\n"])
        self.assertEqual(values(b'"\\573$a"'), [b"{", b"$a", b'"'])
        self.assertEqual(values(b"<<<A\nb\\412A\nA;"), [b"b\nA", b"A"])

    def test_in_a_heredoc_a_break_is_lost_before_a_variable(self):
        for escape in (b"\\n", b"\\412"):
            self.assertEqual(values(b"<<<A\nb%s$c\nA;" % escape), [b"b", b"$c", b"A"], escape)

    def test_elsewhere_it_stands_as_it_is(self):
        for octal in ("rust", "manual"):
            read = values(b"'\\400'; `\\400`; <<<'A'\n\\400\nA; // \\400", octal)
            self.assertEqual(read, [b"\\400", b"\\400", b"`", b"\\400", b"A", b"// \\400"])

    def test_both_choices_at_once(self):
        for sheet, rows in ((False, [b"  .", b" #"]), (True, [b".", b"#"])):
            read = tokens(SHEET, sheet=sheet, octal="manual")
            self.assertEqual([token.value for token in read], [b"<?php", rows[0], b"A", b"A", rows[1], b"B"])
            self.assertEqual(refused(tokens, SHEET, sheet=sheet), (3, 3, 11, 27, 3))

    def test_a_list_its_records_and_what_is_cut(self):
        read = TokenList(SCRIPT, octal="manual")
        self.assertEqual((list(read), read.pool), (READ, b'<?php\x00$a\xff"\x00\xffA'))
        self.assertEqual(read.list[8:16], [18, 0, 1, 7, 6, 5, 1, 12])
        self.assertEqual(list_to_file(read.list)[32:64:4], bytes(read.list[8:16]))
        self.assertEqual(records(read.list, read.pool), READ)
        self.assertEqual([read.cut(byte) for byte in (5, 6, 11, 12)], [None, b'"\\400"', b'"\\400"', None])


class Rust(unittest.TestCase):
    def test_it_is_refused_after_its_third_digit(self):
        for script, expected in REFUSED.items():
            for call in (tokens, TokenList):
                self.assertEqual(refused(call, script, octal="rust"), expected, script)
                self.assertIsNone(refused(call, script, octal="manual"))

    def test_it_is_the_choice_where_none_is_made(self):
        for script, expected in REFUSED.items():
            self.assertEqual([refused(call, script) for call in (tokens, TokenList, Stream().feed)], [expected] * 3)

    def test_sheet_alone_never_chooses_it(self):
        for sheet in (True, 1, 2, 3, "manual"):
            self.assertEqual(refused(tokens, SHEET, sheet=sheet), (3, 3, 11, 27, 3), sheet)

    def test_blocks_are_read_as_the_manual_has_it_unless_asked(self):
        read = [Block(2, b"A", [b"."]), Block(4, b"B", [b"#"])]
        self.assertEqual((list(blocks(SHEET)), list(blocks(SHEET, octal="manual"))), (read, read))
        found = blocks(SHEET, octal="rust")
        self.assertEqual(next(found), read[0])
        self.assertEqual(refused(next, found), (3, 3, 11, 27, 0))

    def test_another_word_is_told_at_once(self):
        for octal in WRONG:
            for call in (tokens, TokenList, blocks, lambda _, octal: Stream(octal=octal)):
                with self.assertRaises(ValueError) as raised:
                    call(b"kerb", octal=octal)
                self.assertEqual(str(raised.exception), f"octal is {octal!r}: choose 'rust' or 'manual'")


    def test_the_refusal_tells_the_byte(self):
        cases = ((b"\\400", 0), (b"\\401", 1), (b"\\477", 63), (b"\\501", 65), (b"\\600", 128), (b"\\777", 255))
        for escape, byte in cases:
            for form in (b'<?php "%s";', b'<?php "$a %s1";', b'<?php "\\\\%s";', b"<?php <<<A\n%s\nA;"):
                for call in (tokens, TokenList, Stream().feed, lambda script: list(blocks(script, octal="rust"))):
                    with self.assertRaises(Refusal) as raised:
                        call(form % escape)
                    self.assertEqual(raised.exception.octal_byte, byte, (form, escape))
        with self.assertRaises(Refusal) as raised:
            tokens(b'<?php "\\501";')
        said = "refused 3 at 1:12: an octal escape is over 377. Write at most 377, or choose octals as the manual has "
        said += "them: the low eight bits are then the byte. With octal='manual' \\501 is byte 65."
        self.assertEqual(str(raised.exception), said)

    def test_other_refusals_tell_no_byte(self):
        for script in (b"<?php '\\400", b'<?php "\\u{D800}";', b'<?php "\\377'):
            with self.assertRaises(Refusal) as raised:
                tokens(script)
            self.assertIsNone(raised.exception.octal_byte)
            self.assertNotIn("is byte", str(raised.exception))
        self.assertEqual(Refusal(3, 1, 5, 4, (), b"\\501").octal_byte, 65)
        for script in (b"", b"501", b"/501", b"\\377", b"\\508", b"\\580", b"5011", b"a\\50"):
            self.assertIsNone(Refusal(3, 1, 5, 4, (), script).octal_byte, script)


class Older(unittest.TestCase):
    """A library that knows no flag but that of sheets: the stand-in refuses what such a one does."""

    def setUp(self):
        fresh = puretakoi._library.puretakoi_fresh

        def older(choices, session, length):
            return int(Reason.BAD_SESSION) if choices > 1 else fresh(choices, session, length)

        patch = mock.patch.object(puretakoi._library, "puretakoi_fresh", older)
        patch.start()
        self.addCleanup(patch.stop)

    def test_it_is_told(self):
        said = f"the library {puretakoi._library._name} is older than this module: install both together"
        calls = (lambda: blocks(SHEET), lambda: tokens(b"kerb", octal="manual"), lambda: Stream(octal="manual"))
        for call in calls + (lambda: TokenList(b"kerb", sheet=True, octal="manual"),):
            with self.assertRaises(RuntimeError) as raised:
                call()
            self.assertEqual(str(raised.exception), said)

    def test_it_reads_by_the_choices_that_it_has(self):
        for sheet in (False, True):
            self.assertEqual(tokens(SCRIPT[:6], sheet=sheet), READ[:1])
        self.assertEqual(next(blocks(SHEET, octal="rust")), Block(2, b"A", [b"."]))


class Parts(unittest.TestCase):
    def test_cut_anywhere_it_is_the_same(self):
        for octal, expected in (("manual", (READ, None)), ("rust", (READ[:1], (3, 1, 12, 11)))):
            for size in range(1, len(SCRIPT) + 1):
                parts = [SCRIPT[at : at + size] for at in range(0, len(SCRIPT), size)]
                self.assertEqual(read_parts(parts, octal), expected, (octal, size))
            for at in range(len(SCRIPT) + 1):
                self.assertEqual(read_parts([SCRIPT[:at], SCRIPT[at:]], octal), expected, (octal, at))

    def test_each_place_cut_anywhere_is_refused_the_same(self):
        for script, expected in REFUSED.items():
            for at in range(len(script) + 1):
                read, place_of_it = read_parts([script[:at], script[at:]], "rust")
                self.assertEqual((*place_of_it, len(read)), expected, (script, at))

    def test_two_digits_wait_under_either_choice(self):
        for octal in ("rust", "manual"):
            for more, value in ((b'"', b" "), (b'8"', b" 8")):
                stream = Stream(octal=octal)
                self.assertEqual(stream.feed(b'<?php "\\40'), READ[:1])
                self.assertEqual([token.value for token in stream.feed(more)], [value])
        self.assertEqual(read_parts([b'<?php "\\40', b'1"'], "rust"), (READ[:1], (3, 1, 12, 11)))
        self.assertEqual(read_parts([b'<?php "\\40', b'1"'], "manual")[0][1].value, b"\x01")

    def test_three_digits_are_refused_at_once_or_settled(self):
        self.assertEqual(refused(Stream(octal="rust").feed, b'<?php "\\400'), (3, 1, 12, 11, 1))
        stream = Stream(octal="manual")
        self.assertEqual(stream.feed(b'<?php "\\400'), READ[:1])
        self.assertEqual(stream.feed(b'"'), READ[1:2])
        stream = Stream(octal="manual")
        stream.feed(b'<?php "\\400')
        self.assertEqual(refused(stream.finish), (1, 1, 12, 11, 0))

    def test_the_choice_is_kept(self):
        cases = [(False, "rust", 0), (True, "rust", 1), (False, "manual", 2), (True, "manual", 3)]
        for sheet, octal, choices in cases:
            for script in (SCRIPT, b"<?php 'a' . \"$b\"; <<<'A'\n .\n A;"):
                stream, kept = Stream(sheet=sheet, octal=octal), []
                try:
                    for at in range(len(script)):
                        stream.feed(script[at : at + 1])
                        kept.append(stream._session[6])
                    stream.finish()
                except Refusal as refusal:
                    self.assertEqual((octal, refusal.number, len(kept)), ("rust", Reason.INVALID_OCTAL_ESCAPE, 10))
                self.assertEqual(set(kept + [stream._session[6]]), {choices})


class Host:
    """What a host lends: a session before byte 6 of SOURCE, with two frames, and room for a call's tokens."""

    SOURCE = b"<?php 1a'\""
    TABLES = ("step", "walk", "read_number", "read_single", "read_double")
    WORDS = {"step": [1], "walk": [1, 1], "read_number": [1], "read_single": [1], "read_double": [1]}
    WORDS.update({"skip": [1], "push": [1, 0, 0], "pop": []})

    def __init__(self):
        self.session, self.list = (ctypes.c_uint32 * 199)(), (ctypes.c_uint32 * 16)()
        self.pool, self.answer = ctypes.create_string_buffer(16), (ctypes.c_uint32 * 5)()
        begun = [self.fresh(0)] + [self.call(name) for name in ("step", "push", "skip")]
        self.session[4] = self.session[5] = 0
        assert (begun, self.session[0], self.session[3]) == ([0] * 4, 6, 2)

    def fresh(self, choices, length=199):
        """Each number has a slot of its own, as calls on x86-64 pass it."""
        return LIBRARY.puretakoi_fresh(ctypes.c_size_t(choices), self.session, ctypes.c_size_t(length))

    def call(self, name, source=SOURCE, length=199):
        words = [source, len(source), *self.WORDS[name], self.session, length]
        if name in self.TABLES:
            words += [self.list, len(self.list), self.pool, len(self.pool)]
        words += [self.answer, len(self.answer)]
        sized = [ctypes.c_size_t(word) if isinstance(word, int) else word for word in words]
        return getattr(LIBRARY, "puretakoi_" + name)(*sized)

    def held(self):
        return self.session[:], self.list[:], self.pool.raw


class Choices(unittest.TestCase):
    def test_the_numbers_are_those_of_the_header(self):
        numbers = dict(re.findall(r"#define PURETAKOI_(\w+) (\d+)", (ROOT / "include/puretakoi.h").read_text()))
        flags = {name: int(number) for name, number in numbers.items() if name.startswith("CHOICE_")}
        self.assertEqual(flags, {"CHOICE_SHEETS": 1, "CHOICE_OCTAL_MANUAL": 2})
        self.assertEqual((puretakoi._CHOICE_SHEETS, puretakoi._CHOICE_OCTAL_MANUAL, numbers["CHOICES"]), (1, 2, "6"))

    def test_what_a_fresh_session_takes(self):
        for choices in range(4):
            host = Host()
            self.assertEqual(host.fresh(choices), 0)
            self.assertEqual(host.session[:8], [0, 1, 1, 1, 0, 0, choices, 0])
        for choices in NO_CHOICES:
            host = Host()
            before = host.held()
            self.assertEqual((host.fresh(choices), host.held()), (Reason.BAD_SESSION, before), choices)
            self.assertEqual(host.fresh(choices, 198), Reason.OUT_OF_PLACE)

    def test_every_call_takes_the_choices_and_keeps_them(self):
        for name in Host.WORDS:
            for choices in range(4):
                host = Host()
                host.session[6] = choices
                self.assertEqual((host.call(name), host.session[6]), (0, choices), (name, choices))

    def test_every_call_refuses_what_is_no_choice(self):
        for name in Host.WORDS:
            for choices in NO_CHOICES:
                host = Host()
                host.session[6] = choices
                before = host.held()
                self.assertEqual((host.call(name), host.held()), (Reason.BAD_SESSION, before), (name, choices))
                self.assertEqual(host.answer[:2], [2, Reason.BAD_SESSION])
                self.assertEqual(host.call(name, b"a" * 65537), Reason.TOO_LARGE)
                self.assertEqual((host.call(name, length=198), host.held()), (Reason.OUT_OF_PLACE, before))

    def test_a_host_may_choose_otherwise_between_calls(self):
        source, host = b'<?php 1a\\400"', Host()
        self.assertEqual((host.call("read_double", source), host.answer[2:]), (3, [1, 13, 12]))
        host.session[6] = 2
        self.assertEqual((host.call("read_double", source), host.pool.raw[: host.session[5]]), (0, b"1a\x00"))
        stream = Stream(octal="manual")
        self.assertEqual(stream.feed(SCRIPT[:13]), READ[:2])
        stream._session[6] = 0
        self.assertEqual(refused(stream.feed, SCRIPT[13:]), (3, 1, 22, 21, 2))


if __name__ == "__main__":
    unittest.main()
