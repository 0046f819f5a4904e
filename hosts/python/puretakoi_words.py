"""Puretakoi in words: kinds, refusals and classes of bytes by name, and what each refusal means."""

from __future__ import annotations

import re
from enum import IntEnum, IntFlag
from typing import Dict, Optional, Tuple


class Kind(IntEnum):
    """Which token it is."""

    INLINE_HTML = 1
    OPEN_TAG_FULL = 2
    OPEN_TAG_ECHO = 3
    OPEN_TAG_SHORT = 4
    STRING_PART = 5
    DOLLAR_LEFT_BRACE = 6
    LEFT_BRACE = 7
    DOUBLE_QUOTE = 8
    BACKTICK = 9
    VARIABLE = 10
    END_DOC_STRING_NONE = 11
    END_DOC_STRING_SPACE = 12
    END_DOC_STRING_TAB = 13
    IDENTIFIER = 14
    QUESTION_ARROW = 15
    ARROW = 16
    LITERAL_SINGLE_QUOTED_STRING = 17
    LITERAL_DOUBLE_QUOTED_STRING = 18
    LITERAL_INTEGER = 19
    LITERAL_FLOAT = 20
    COMMENT = 21


class Reason(IntEnum):
    """Why a script is refused."""

    UNEXPECTED_END_OF_FILE = 1
    INVALID_UNICODE_ESCAPE = 2
    INVALID_OCTAL_ESCAPE = 3
    INVALID_DOC_INDENTATION = 4
    NO_PROPERTY = 5
    WAIT = 6
    LIST_FULL = 7
    POOL_FULL = 8
    STACK_FULL = 9
    OUT_OF_PLACE = 10
    TOO_LARGE = 11
    BAD_SESSION = 12
    STRAY_INDENTATION = 13


class Class(IntFlag):
    """What a byte counts as, a flag each; a byte may have several, or none."""

    BLANK = 1
    OCTAL = 2
    DIGIT = 4
    HEX = 8
    LETTER = 16
    START = 32
    IDENTIFIER = 64
    SIGN = 128

    @property
    def words(self) -> str:
        """The classes in words, with commas between them, as `puretakoi bytes` tells them."""
        return ", ".join(words for flag, words in CLASS_NAMES.items() if flag & self) or "none"


# Of each class: its name.
CLASS_NAMES: Dict[Class, str] = {
    Class.BLANK: "blank",
    Class.OCTAL: "octal digit",
    Class.DIGIT: "digit",
    Class.HEX: "hex digit",
    Class.LETTER: "letter",
    Class.START: "identifier start",
    Class.IDENTIFIER: "identifier byte",
    Class.SIGN: "sign",
}

# Of each reason: its name, what it is, what to do.
WORDS: Dict[Reason, Tuple[str, str, str]] = {
    Reason.UNEXPECTED_END_OF_FILE: (
        "unexpected end of file",
        "something is still open where the script ends",
        "Close the string, the text block, the command or the comment.",
    ),
    Reason.INVALID_UNICODE_ESCAPE: (
        "invalid unicode escape",
        "a \\u{..} escape names no code point",
        "Write hex digits between the braces, up to 10FFFF and not from D800 to DFFF.",
    ),
    Reason.INVALID_OCTAL_ESCAPE: (
        "invalid octal escape",
        "an octal escape is over 377",
        "Write at most 377, or choose octals as the manual has them: the low eight bits are then the byte.",
    ),
    Reason.INVALID_DOC_INDENTATION: (
        "invalid indentation of a closer",
        "the closing line is indented by spaces and tabs mixed",
        "Use spaces alone or tabs alone before the label.",
    ),
    Reason.NO_PROPERTY: (
        "no property",
        "neither an arrow nor a name stands where a property is looked for",
        "Write an arrow or a name there, or pop the frame.",
    ),
    Reason.WAIT: ("wait", "what comes next is still needed", "Lend more of the script, or announce its end."),
    Reason.LIST_FULL: (
        "list full",
        "there are more tokens than places left in the list",
        "Take the tokens out and empty the tables, or lend a longer list.",
    ),
    Reason.POOL_FULL: (
        "pool full",
        "there are more value bytes than bytes left in the pool",
        "Take the values out and empty the tables, or lend a longer pool.",
    ),
    Reason.STACK_FULL: (
        "stack full",
        "braces and interpolations are nested more than 64 deep",
        "Nest them less deep.",
    ),
    Reason.OUT_OF_PLACE: (
        "out of place",
        "the call does not fit where the cursor and the frames are, or what it was given",
        "Look at the session and at what was lent before calling again.",
    ),
    Reason.TOO_LARGE: (
        "too large",
        "there are more than 65,536 bytes of script or pool, or more than 65,537 tokens",
        "Divide the script into smaller ones.",
    ),
    Reason.BAD_SESSION: (
        "bad session",
        "the session was changed by hand or belongs to another script, or a count is above the list's places",
        "Go on with the session of this script or a fresh one; count no more records than the list has.",
    ),
    Reason.STRAY_INDENTATION: (
        "stray indentation",
        "a row starts with less than the closing line's indentation",
        "Indent the row as the closing line is, or the closing line less.",
    ),
}


def octal_byte(script: bytes, position: int) -> Optional[int]:
    """The byte of the octal escape over 377 that ends at a position, its low eight bits; None where none does."""
    escape = re.fullmatch(rb"\\([4-7][0-7]{2})", script[max(position - 4, 0) : position])
    return int(escape[1], 8) & 0xFF if escape else None


def octal_words(byte: Optional[int]) -> str:
    """What is told of a refused octal escape, beside the advice, where its byte is known."""
    return "" if byte is None else f" With octal='manual' \\{0o400 + byte:o} is byte {byte}."
