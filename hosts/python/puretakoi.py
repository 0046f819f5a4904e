"""Puretakoi in Python: the proved reader of the PHP scripts from which tactile maps are embossed, on x86-64 Linux.

    for token in puretakoi.tokens(script):
        print(token.line, token.column, token.kind.name, token.value)
    for block in puretakoi.blocks(script):
        for row in block.rows:
            print(row)
    print(puretakoi.TokenList(script, sheet=True).at(byte))
    print(puretakoi.TokenList(script, sheet=True).cut(byte))
    print(puretakoi.classes_of(script[byte]).words)

What can't be read raises Refusal. The library is the one that PURETAKOI_LIBRARY names, else the one that is installed
with this module, else the one that the system's loader finds. A Stream is for one thread at a time.

A call that reads a script takes two choices. With sheet=True nowdoc blocks are read as sheets, else as the lexer that
was carried over does. With octal="manual" an octal escape over 377, in double quotes or a heredoc, is one byte, as the
PHP manual has it: \\400 is byte 0, \\777 is 255. With octal="rust" it is refused (3), as that lexer does.
"""

from __future__ import annotations

import ctypes
import sys
from ctypes import c_uint32
from typing import Any, Iterator, List, NamedTuple, Optional, Sequence, Tuple

import puretakoi_words as _words
from puretakoi_library import classes_of, library as _library, older as _older
from puretakoi_words import Class, Kind, Reason

__version__ = "0.1.0"
__all__ = ["Block", "Class", "Found", "Kind", "Reason", "Refusal", "Stream", "Token", "TokenList", "Under"]
__all__ += ["blocks", "classes_of", "file_to_list", "find", "list_to_file", "records", "tokens"]

MOST_BYTES = 65536
_CHOICE_SHEETS, _CHOICE_OCTAL_MANUAL = 1, 2
_SESSION, _POSITION, _LINE, _DEPTH, _TOKENS, _BYTES, _SLOTS, _SLOT = 199, 0, 1, 3, 4, 5, 7, 3
_RECORD, _FOUND, _PLACES, _LONG, _NOWDOC, _FINISHED, _MOST_NUMBER = 8, 4, 512, 4096, 5, 1, 0xFFFFFFFF


class Token(NamedTuple):
    """A token, the place where it stands (lines and columns from 1, in bytes), its value, and where its step ended.

    All tokens of one step have one `end`, a position in the script. It is None where it is not stated: where the
    record has 0, as in files that older writers made.
    """

    kind: Kind
    detail: int
    line: int
    column: int
    position: int
    value: bytes
    end: Optional[int] = None

    def written(self, script: bytes) -> Optional[bytes]:
        """A literal or a comment as it stands in its script, with its quotes.

        None for other kinds, and where the end is not stated or not in the script.
        """
        is_whole = Kind.LITERAL_SINGLE_QUOTED_STRING <= self.kind <= Kind.COMMENT
        if not is_whole or self.end is None or not self.position <= self.end <= len(script):
            return None
        return bytes(script[self.position : self.end])


class Block(NamedTuple):
    """A nowdoc block: the line of its first row, its label, and its rows without their breaks."""

    line: int
    label: bytes
    rows: List[bytes]


class Found(NamedTuple):
    """Which record of a list is under a byte, its number from 0 or None, and how many were looked at: at most 17.

    The `end` is the record's, as that of a Token; None without a record.
    """

    record: Optional[int]
    looks: int
    end: Optional[int] = None


class Under(NamedTuple):
    """The token under a byte: the last one at or before it, of those at one position the last.

    The byte is `inside` what the token's step has `passed`, which goes up to the token's end, or a name, punctuation
    or a blank after it, or `past_end`. In a nowdoc block read as a sheet `row` and `cell` are its place in
    Block.rows, from 1: no cell on the indentation that comes off and on a line break, no row on the closing line. `cell` counts the
    row's bytes; `puretakoi at` counts characters.
    """

    token: Token
    number: int
    looks: int
    passed: range
    inside: bool
    past_end: bool
    row: Optional[int]
    cell: Optional[int]


class Refusal(Exception):
    """Why and where a script is refused, and the tokens that the refused call had read before.

    Of an octal escape over 377 `octal_byte` is the byte that it is with octal="manual"; else it is None.
    """

    def __init__(
        self, number: int, line: int, column: int, position: int, read: Sequence[Token] = (), script: bytes = b""
    ) -> None:
        self.number = Reason(number)
        self.line, self.column, self.position = line, column, position
        self.name, self.meaning, self.advice = _words.WORDS[self.number]
        self.tokens = list(read)
        self.octal_byte = _words.octal_byte(script, position) if number == Reason.INVALID_OCTAL_ESCAPE else None
        said = f"refused {number} at {line}:{column}: {self.meaning}. {self.advice}"
        super().__init__(said + _words.octal_words(self.octal_byte))


def _choices(sheet: bool, octal: str) -> int:
    """The choices as a session has them: flags, added up."""
    if octal not in ("rust", "manual"):
        raise ValueError(f"octal is {octal!r}: choose 'rust' or 'manual'")
    return (_CHOICE_SHEETS if sheet else 0) + (_CHOICE_OCTAL_MANUAL if octal == "manual" else 0)


class Stream:
    """Reads a script that comes in parts of any size, at most 65,536 bytes in all.

    A token comes as soon as it is settled; that of an open text of more than 4,096 bytes when the text has doubled, or at the end.
    """

    def __init__(self, *, sheet: bool = False, octal: str = "rust") -> None:
        """A stream before its first part, with its choices."""
        self._source = b""
        self._is_ended = self._is_finished = False
        self._enough = 0
        self._session = (c_uint32 * _SESSION)()
        self._list = (c_uint32 * (_RECORD * _PLACES))()
        self._pool = ctypes.create_string_buffer(MOST_BYTES)
        self._answer = (c_uint32 * 5)()
        if _library.puretakoi_fresh(_choices(sheet, octal), self._session, _SESSION):
            raise _older()

    def feed(self, part: bytes) -> List[Token]:
        """Adds a part, and gives the tokens that can be read."""
        if self._is_ended:
            raise ValueError("the script's end is announced: feed a stream of its own")
        self._source = (self._source + part)[: MOST_BYTES + 1]
        return self._walk() if len(self._source) >= self._enough else []

    def finish(self) -> List[Token]:
        """Announces the script's end, and gives the tokens that are left; once all are given, none."""
        self._is_ended = True
        return [] if self._is_finished else self._walk()

    def _tables(self) -> Tuple[object, ...]:
        session, tables = (self._session, _SESSION), (self._list, len(self._list), self._pool, MOST_BYTES)
        return session + tables + (self._answer, len(self._answer))

    def _walk(self) -> List[Token]:
        """Walks up to a wait or the end. Where list or pool is full, the tokens are taken and the walk goes on."""
        read: List[Token] = []
        while True:
            source, end = self._source, int(self._is_ended)
            number = _library.puretakoi_walk(source, len(source), end, _MOST_NUMBER, *self._tables())
            taken = self._take()
            read += taken
            self._is_finished = self._answer[0] == _FINISHED
            if number == Reason.WAIT or self._is_finished:
                self._enough = self._next_look()
                return read
            if number and not (taken and number in (Reason.LIST_FULL, Reason.POOL_FULL)):
                raise self._refusal(number, read)

    def _next_look(self) -> int:
        """How many bytes are worth another walk: it reads the open text again from its start, so a long one has to double."""
        filled = len(self._source)
        open_bytes = filled - self._session[_POSITION]
        return min(filled + (open_bytes if open_bytes > _LONG else 1), MOST_BYTES + 1)

    def _step(self) -> bool:
        """One step over the whole script: whether more is left. Its tokens are in the tables."""
        number = _library.puretakoi_step(self._source, len(self._source), 1, *self._tables())
        if number:
            raise self._refusal(number, self._take())
        return self._answer[0] != _FINISHED

    def _refusal(self, number: int, read: Sequence[Token] = ()) -> Refusal:
        """A refusal at the answer's place."""
        line, column, position = self._answer[2:5]
        return Refusal(number, line, column, position, read, self._source)

    def _take(self) -> List[Token]:
        """The tokens of the tables, which are empty again."""
        count, pool = self._session[_TOKENS], bytes(memoryview(self._pool)[: self._session[_BYTES]])
        self._session[_TOKENS] = self._session[_BYTES] = 0
        return records(self._list[: _RECORD * count], pool)

    def _top(self) -> List[int]:
        """The frame on top: its number, and its label's start and length."""
        start = _SLOTS + _SLOT * (self._session[_DEPTH] - 1)
        return self._session[start : start + _SLOT]


def _whole(script: bytes, sheet: bool, octal: str) -> Stream:
    """A stream with all of a script; of too large a one no more than shows it."""
    stream = Stream(sheet=sheet, octal=octal)
    stream._source = bytes(script[: MOST_BYTES + 1])
    return stream


def tokens(script: bytes, *, sheet: bool = False, octal: str = "rust") -> List[Token]:
    """All tokens of a script. Refusal.tokens has those before a refusal."""
    return _whole(script, sheet, octal).finish()


def blocks(script: bytes, *, octal: str = "manual") -> Iterator[Block]:
    """The nowdoc blocks of a sheet, the closing line's indentation taken off each row; those before a refusal too.

    It is for proofreaders, as `puretakoi view` is, and reads octal escapes as the manual has them: PHP takes a legend
    with one over 377, which changes no row. With octal="rust" the sheet is refused there, and later blocks are lost.
    """
    return _blocks(_whole(script, True, octal))


def _blocks(stream: Stream) -> Iterator[Block]:
    """The blocks of a stream with all of a script."""
    more = True
    while more:
        (frame, start, length), line = stream._top(), stream._session[_LINE]
        more = stream._step()
        read = stream._take()
        if frame == _NOWDOC:
            lines = stream._session[_LINE] - line
            yield Block(line, stream._source[start : start + length], _rows(read, lines))


def _rows(read: List[Token], lines: int) -> List[bytes]:
    """The rows of a block's text. A text of no bytes is no row or an empty one: the lines tell."""
    if lines == 0:
        return []
    text = b"".join(token.value for token in read if token.kind is Kind.STRING_PART)
    *broken, last = text.split(b"\n")
    return [row[:-1] if row.endswith(b"\r") else row for row in broken] + [last]


def records(numbers: Sequence[int], pool: bytes) -> List[Token]:
    """The tokens of a list, eight numbers each, with their values from its pool; a shorter rest is none."""
    return [_token(numbers[at : at + _RECORD], pool) for at in range(0, len(numbers) - _RECORD + 1, _RECORD)]


def _token(record: Sequence[int], pool: bytes) -> Token:
    """A record with its value."""
    kind, detail, line, column, position, start, length, end = record
    if not 1 <= kind <= len(Kind):
        raise ValueError(f"a record's kind is {kind}, and no token's: give a list that the library wrote")
    if start + length > len(pool):
        said = f"a value ends at byte {start + length} of the pool, which has {len(pool)}"
        raise ValueError(f"{said}: give the pool that belongs to the list")
    value = bytes(pool[start : start + length])
    return Token(Kind(kind), detail, line, column, position, value, end or None)


def list_to_file(numbers: Sequence[int]) -> bytes:
    """All records of a list as a file, 32 bytes each. Refused: too many (11), no whole number of records (10)."""
    lent, size = _lent(numbers), 4 * len(numbers)
    file = ctypes.create_string_buffer(size)
    _check(_library.puretakoi_list_to_file(lent, len(lent), file, size))
    return file.raw


def file_to_list(file: bytes) -> List[int]:
    """All records of a file as a list. Refused: too many (11), no whole number of records (10)."""
    numbers = (c_uint32 * (len(file) // 4))()
    _check(_library.puretakoi_file_to_list(bytes(file), len(file), numbers, len(numbers)))
    return numbers[:]


def find(records: Sequence[int], count: int, byte: int) -> Found:
    """The last of the first `count` records, eight numbers each, at or before a byte. Refused with 11 or 12."""
    lent, found = _lent(records), (c_uint32 * _FOUND)()
    _check(_library.puretakoi_find(lent, len(lent), _size(count), _size(byte), found, len(found)))
    any_found, record, looks, end = found
    return Found(record if any_found else None, looks, end or None)


def _lent(numbers: Sequence[int]) -> Any:
    """A list's numbers as a call takes them."""
    if isinstance(numbers, ctypes.Array):
        return numbers
    if not all(0 <= number <= _MOST_NUMBER for number in numbers):
        raise ValueError(f"a list's number is not from 0 to {_MOST_NUMBER}")
    return (c_uint32 * len(numbers))(*numbers)


def _check(number: int) -> None:
    """Raises the refusal of a call without a session, if there is one."""
    if number:
        raise Refusal(number, 1, 1, 0)


def _size(number: int) -> int:
    """A number as a call takes it: one that is too large to pass is as good as the largest."""
    if number < 0:
        raise ValueError(f"{number} is below 0: bytes and records count from 0")
    return min(number, sys.maxsize)


class TokenList(Sequence[Token]):
    """All tokens of a script, in one list of the library, which can be asked for the one under a byte."""

    def __init__(self, script: bytes, *, sheet: bool = False, octal: str = "rust") -> None:
        """Reads a script as `tokens` does, by single steps, and is refused as it is."""
        stream, more = _whole(script, sheet, octal), True
        stream._list = (c_uint32 * (_RECORD * (len(stream._source) + 1)))()
        self._script, self._list = stream._source, stream._list
        self._steps: List[Tuple[range, bool]] = []  # of each token: what its step passed, and whether that is a sheet
        while more:
            frame, start = stream._top()[0], stream._session[_POSITION]
            more = stream._step()
            step = range(start, stream._session[_POSITION]), sheet and frame == _NOWDOC
            self._steps += [step] * (stream._session[_TOKENS] - len(self._steps))
        self._pool = bytes(memoryview(stream._pool)[: stream._session[_BYTES]])
        self._tokens = stream._take()

    def __len__(self) -> int:
        return len(self._tokens)

    def __getitem__(self, index: Any) -> Any:
        return self._tokens[index]

    def at(self, byte: int) -> Optional[Under]:
        """What is under a byte, counted from 0; None for one before the script."""
        found = find(self._list, len(self), byte) if byte >= 0 else Found(None, 0)
        if found.record is None:
            return None
        token, (passed, is_sheet) = self._tokens[found.record], self._steps[found.record]
        inside, past_end, text = byte in passed, byte >= len(self._script), self._script[passed.start : passed.stop]
        row, cell = _cell(text, token.detail, byte - passed.start) if is_sheet else (None, None)
        return Under(token, found.record, found.looks, passed, inside, past_end, row, cell)

    def cut(self, byte: int) -> Optional[bytes]:
        """The literal or the comment that has a byte, as it stands in the script; None where none has it."""
        under = self.at(byte)
        return under.token.written(self._script) if under is not None and under.inside else None

    @property
    def list(self) -> List[int]:
        """The records of all tokens, eight numbers each: what `find`, `records` and `list_to_file` take."""
        return self._list[: _RECORD * len(self)]

    @property
    def pool(self) -> bytes:
        """The values of all tokens."""
        return self._pool


def _cell(text: bytes, indentation: int, at: int) -> Tuple[Optional[int], Optional[int]]:
    """Row and cell of a byte of a block or after it; the block's last line is the closing one and has no break."""
    if text.find(b"\n", at) < 0:
        return None, None
    column = at - (text.rfind(b"\n", 0, at) + 1) - indentation
    is_break = text.startswith((b"\n", b"\r\n"), at)
    return text.count(b"\n", 0, at) + 1, None if is_break or column < 0 else column + 1
