/* Puretakoi in words: what the numbers of puretakoi.h mean, for a message to a person. C99 or C++. */
#ifndef PURETAKOI_WORDS_H
#define PURETAKOI_WORDS_H

#include "puretakoi.h"

/* A refusal's name. */
static inline const char *puretakoi_refusal_name(uint32_t refusal) {
    switch (refusal) {
    case PURETAKOI_UNEXPECTED_END_OF_FILE:
        return "unexpected end of file";
    case PURETAKOI_INVALID_UNICODE_ESCAPE:
        return "invalid unicode escape";
    case PURETAKOI_INVALID_OCTAL_ESCAPE:
        return "invalid octal escape";
    case PURETAKOI_INVALID_DOC_INDENTATION:
        return "invalid indentation of a closer";
    case PURETAKOI_NO_PROPERTY:
        return "no property";
    case PURETAKOI_WAIT:
        return "wait";
    case PURETAKOI_LIST_FULL:
        return "list full";
    case PURETAKOI_POOL_FULL:
        return "pool full";
    case PURETAKOI_STACK_FULL:
        return "stack full";
    case PURETAKOI_OUT_OF_PLACE:
        return "out of place";
    case PURETAKOI_TOO_LARGE:
        return "too large";
    case PURETAKOI_BAD_SESSION:
        return "bad session";
    case PURETAKOI_STRAY_INDENTATION:
        return "stray indentation";
    default:
        return "no refusal";
    }
}

/* What a refusal is: a sentence that begins with a small letter and has no full stop. */
static inline const char *puretakoi_refusal_meaning(uint32_t refusal) {
    switch (refusal) {
    case PURETAKOI_UNEXPECTED_END_OF_FILE:
        return "something is still open where the script ends";
    case PURETAKOI_INVALID_UNICODE_ESCAPE:
        return "a \\u{..} escape names no code point";
    case PURETAKOI_INVALID_OCTAL_ESCAPE:
        return "an octal escape is over 377";
    case PURETAKOI_INVALID_DOC_INDENTATION:
        return "the closing line is indented by spaces and tabs mixed";
    case PURETAKOI_NO_PROPERTY:
        return "neither an arrow nor a name stands where a property is looked for";
    case PURETAKOI_WAIT:
        return "what comes next is still needed";
    case PURETAKOI_LIST_FULL:
        return "there are more tokens than places left in the list";
    case PURETAKOI_POOL_FULL:
        return "there are more value bytes than bytes left in the pool";
    case PURETAKOI_STACK_FULL:
        return "braces and interpolations are nested more than 64 deep";
    case PURETAKOI_OUT_OF_PLACE:
        return "the call does not fit where the cursor and the frames are, or what it was given";
    case PURETAKOI_TOO_LARGE:
        return "there are more than 65,536 bytes of script or pool, or more than 65,537 tokens";
    case PURETAKOI_BAD_SESSION:
        return "the session was changed by hand or belongs to another script, or a count is above the list's places";
    case PURETAKOI_STRAY_INDENTATION:
        return "a row starts with less than the closing line's indentation";
    default:
        return "the library gives no such number";
    }
}

/* What to do about a refusal: a whole sentence. */
static inline const char *puretakoi_refusal_advice(uint32_t refusal) {
    switch (refusal) {
    case PURETAKOI_UNEXPECTED_END_OF_FILE:
        return "Close the string, the text block, the command or the comment.";
    case PURETAKOI_INVALID_UNICODE_ESCAPE:
        return "Write hex digits between the braces, up to 10FFFF and not from D800 to DFFF.";
    case PURETAKOI_INVALID_OCTAL_ESCAPE:
        return "Write at most 377, or choose octals as the manual has them: the low eight bits are then the byte.";
    case PURETAKOI_INVALID_DOC_INDENTATION:
        return "Use spaces alone or tabs alone before the label.";
    case PURETAKOI_NO_PROPERTY:
        return "Write an arrow or a name there, or pop the frame.";
    case PURETAKOI_WAIT:
        return "Lend more of the script, or announce its end.";
    case PURETAKOI_LIST_FULL:
        return "Take the tokens out and empty the tables, or lend a longer list.";
    case PURETAKOI_POOL_FULL:
        return "Take the values out and empty the tables, or lend a longer pool.";
    case PURETAKOI_STACK_FULL:
        return "Nest them less deep.";
    case PURETAKOI_OUT_OF_PLACE:
        return "Look at the session and at what was lent before calling again.";
    case PURETAKOI_TOO_LARGE:
        return "Divide the script into smaller ones.";
    case PURETAKOI_BAD_SESSION:
        return "Go on with the session of this script or a fresh one; count no more records than the list has.";
    case PURETAKOI_STRAY_INDENTATION:
        return "Indent the row as the closing line is, or the closing line less.";
    default:
        return "Look at where it came from.";
    }
}

/* A kind's name. */
static inline const char *puretakoi_kind_name(uint32_t kind) {
    switch (kind) {
    case PURETAKOI_KIND_INLINE_HTML: return "inline text";
    case PURETAKOI_KIND_OPEN_TAG_FULL: return "full open tag";
    case PURETAKOI_KIND_OPEN_TAG_ECHO: return "echo open tag";
    case PURETAKOI_KIND_OPEN_TAG_SHORT: return "short open tag";
    case PURETAKOI_KIND_STRING_PART: return "string part";
    case PURETAKOI_KIND_DOLLAR_LEFT_BRACE: return "dollar and left brace";
    case PURETAKOI_KIND_LEFT_BRACE: return "left brace";
    case PURETAKOI_KIND_DOUBLE_QUOTE: return "double quote";
    case PURETAKOI_KIND_BACKTICK: return "backtick";
    case PURETAKOI_KIND_VARIABLE: return "variable";
    case PURETAKOI_KIND_END_DOC_STRING_NONE: return "end of text block, not indented";
    case PURETAKOI_KIND_END_DOC_STRING_SPACE: return "end of text block, indented by spaces";
    case PURETAKOI_KIND_END_DOC_STRING_TAB: return "end of text block, indented by tabs";
    case PURETAKOI_KIND_IDENTIFIER: return "identifier";
    case PURETAKOI_KIND_QUESTION_ARROW: return "question arrow";
    case PURETAKOI_KIND_ARROW: return "arrow";
    case PURETAKOI_KIND_LITERAL_SINGLE_QUOTED_STRING: return "single-quoted string";
    case PURETAKOI_KIND_LITERAL_DOUBLE_QUOTED_STRING: return "double-quoted string";
    case PURETAKOI_KIND_LITERAL_INTEGER: return "integer";
    case PURETAKOI_KIND_LITERAL_FLOAT: return "float";
    case PURETAKOI_KIND_COMMENT: return "comment";
    default: return "no kind";
    }
}

/* The name of a byte's class, one flag of `puretakoi_classes_of`. */
static inline const char *puretakoi_class_name(uint32_t flag) {
    switch (flag) {
    case PURETAKOI_CLASS_BLANK: return "blank";
    case PURETAKOI_CLASS_OCTAL: return "octal digit";
    case PURETAKOI_CLASS_DIGIT: return "digit";
    case PURETAKOI_CLASS_HEX: return "hex digit";
    case PURETAKOI_CLASS_LETTER: return "letter";
    case PURETAKOI_CLASS_START: return "identifier start";
    case PURETAKOI_CLASS_IDENTIFIER: return "identifier byte";
    case PURETAKOI_CLASS_SIGN: return "sign";
    default: return "no class";
    }
}

#endif
