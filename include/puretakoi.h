/* Puretakoi for hosts in C and C++ on x86-64 Linux: the functions of libpuretakoi (libpuretakoi.a, libpuretakoi.so),
 * the layout of a session, and the refusal numbers. puretakoi_words.h has refusals, kinds and classes in words.
 *
 * A slice is a pointer and a length, in bytes for uint8_t and in numbers for uint32_t. Pointer and length must be true, a pointer is
 * not null and rightly aligned (also with length 0), and slices of one call must not overlap. Any numbers may stand in them: every call
 * ends with an answer.
 *
 * `src` is all of the script so far, from its first byte on: after a wait lend the longer one, never the next piece
 * alone. It may stand elsewhere at each call, as realloc moves it; the bytes that it had must be the same.
 *
 * A call allocates nothing and keeps nothing: all it knows is in the slices. Threads may call at the same time, each
 * with a session, list, pool and answer of its own; a script may be shared. A session is plain numbers: memcpy makes
 * another that goes on from the same place. The deepest call, a walk, takes about 5,500 bytes of stack. */
#ifndef PURETAKOI_H
#define PURETAKOI_H

#include <stddef.h>
#include <stdint.h>

#ifdef __cplusplus
extern "C" {
#endif

/* ---- The version, of this header and of the library that is installed with it. */

#define PURETAKOI_VERSION "0.1.0"
#define PURETAKOI_VERSION_MAJOR 0
#define PURETAKOI_VERSION_MINOR 1
#define PURETAKOI_VERSION_PATCH 0

/* ---- Limits */

#define PURETAKOI_MOST_BYTES 65536  /* of a source, and of a pool */
#define PURETAKOI_MOST_TOKENS 65537 /* places of a list */
#define PURETAKOI_MOST_FRAMES 64    /* of a mode stack */
#define PURETAKOI_MOST_LABEL 64     /* bytes of a text block's label */

/* ---- A session: 199 numbers. A longer slice is as good; what lies after is not touched. Between calls a host may set
 * both marks to 0: list and pool are then empty. It may also set other choices: a call goes by those of its session,
 * and changes none. The top frame is session[PURETAKOI_SLOTS + PURETAKOI_SLOT * (session[PURETAKOI_DEPTH] - 1)]. Slots
 * above the depth mean nothing, nor do a label's two numbers where the frame has none: a call may change such numbers,
 * or leave them. */

#define PURETAKOI_SESSION 199 /* how many numbers a session has */
#define PURETAKOI_POSITION 0  /* bytes of the source that are read */
#define PURETAKOI_LINE 1      /* the cursor's line, from 1 */
#define PURETAKOI_COLUMN 2    /* the cursor's column in bytes, from 1 */
#define PURETAKOI_DEPTH 3     /* frames on the mode stack, 1 to 64 */
#define PURETAKOI_TOKENS 4    /* the list's fill mark: records that are in it */
#define PURETAKOI_BYTES 5     /* the pool's fill mark: bytes that are in it */
#define PURETAKOI_CHOICES 6   /* what its owner chose: flags below, added up; another bit is no session's */
#define PURETAKOI_SLOTS 7     /* the first of 64 slots, the bottom frame's */
#define PURETAKOI_SLOT 3      /* numbers of a slot: frame, label start, label length (0, 0 for a frame without a label) */

#define PURETAKOI_CHOICE_SHEETS 1 /* nowdoc blocks are read as sheets: the closing line's indentation comes off each row, and no */
                                  /* letter, digit, _ or byte from 0x80 on stands after a closing label; with more announced a */
                                  /* part that ends in one waits. Else they are read as the lexer that was carried over does */
#define PURETAKOI_CHOICE_OCTAL_MANUAL 2 /* an octal escape over 377 is the byte of its low eight bits, as the PHP */
                                        /* manual has it: \400 is byte 0, \777 is 255. The byte is text and no more: */
                                        /* \442 closes no string. Else such an escape is refused with 3, as the lexer */
                                        /* that was carried over does */

/* Other names of these numbers, which older hosts use. */
#define PURETAKOI_READING PURETAKOI_CHOICES
#define PURETAKOI_READING_PORTED 0
#define PURETAKOI_READING_SHEET PURETAKOI_CHOICE_SHEETS

#define PURETAKOI_FRAME_INITIAL 0              /* inline text up to a tag */
#define PURETAKOI_FRAME_SCRIPTING 1            /* the script */
#define PURETAKOI_FRAME_DOUBLE_QUOTE 2         /* a double-quoted string after its first interpolation */
#define PURETAKOI_FRAME_SHELL_EXEC 3           /* a command between backticks */
#define PURETAKOI_FRAME_HEREDOC 4              /* a heredoc block; its label is a range of the source */
#define PURETAKOI_FRAME_NOWDOC 5               /* a nowdoc block; its label is a range of the source */
#define PURETAKOI_FRAME_LOOKING_FOR_VARNAME 6  /* after ${ */
#define PURETAKOI_FRAME_LOOKING_FOR_PROPERTY 7 /* at an arrow after a variable */
#define PURETAKOI_FRAME_VAR_OFFSET 8           /* between [ and ] after a variable */

/* ---- An answer: 5 numbers, or 6. A longer slice is as good. The step, the readings and the walk write the sixth where it is lent. */

#define PURETAKOI_ANSWER 5          /* how many numbers an answer has at least */
#define PURETAKOI_ANSWER_COUNTED 6  /* how many it has with the steps */
#define PURETAKOI_ANSWER_WAY 0      /* done, finished or refused, below */
#define PURETAKOI_ANSWER_REFUSAL 1  /* the refusal's number, or 0 */
#define PURETAKOI_ANSWER_LINE 2     /* the refusal's line, or 0 */
#define PURETAKOI_ANSWER_COLUMN 3   /* the refusal's column, or 0 */
#define PURETAKOI_ANSWER_POSITION 4 /* the refusal's position, or 0 */
#define PURETAKOI_ANSWER_STEPS 5    /* how many steps, or readings, were done; one that is finished or refused does not count */

#define PURETAKOI_DONE 0     /* done: go on */
#define PURETAKOI_FINISHED 1 /* done, and nothing is left to read: stop. One more step or walk is FINISHED too, and */
                             /* with Initial on top, as it is after ?>, writes another InlineHtml without bytes */
#define PURETAKOI_REFUSED 2  /* refused: session, list and pool are as they were; of a walk, as they were before the refused step */

/* ---- A token: 8 numbers of the list. As a file: 32 bytes, little-endian.
 *
 *   kind          value                                                         detail
 *   1             the text; no bytes after a last ?> or in an empty script      0
 *   2, 3, 4       the tag as it stands                                          0
 *   5             the text: see below                                           0
 *   6 to 10       its bytes as they stand, as ${ or $name                       0
 *   11, 12, 13    the label that closes                                         0, or how many spaces, or tabs, before it
 *   14, 15, 16    its bytes as they stand, as name or ->                        0
 *   17, 18        the text between the quotes, each escape as what it is for    0
 *   19, 20        the number as it stands, without its _, and e for E           0
 *   21            the comment as it stands                                      0
 *
 * An octal escape over 377, in double quotes or a heredoc, is for one byte or is refused with 3, by the session's
 * choice.
 *
 * A StringPart is the text, in double quotes and heredocs with each escape as what it is for, in backticks as it stands,
 * in nowdocs as it stands or as a sheet. The line break before a closing label is not in it, but the CR of a CRLF there
 * is, unless the block is read as a sheet. A StringPart without bytes is written in one case, before the first
 * interpolation of a double-quoted string: "$a" gives it, then Variable and DoubleQuote. Where else a text is empty
 * there is none.
 *
 * A StringPart and the token that follows it in the same step bear one place, where the step began: so the place of an
 * end of a text block is not its closing line. InlineHtml and the tag after it bear a place each.
 *
 * All records of one step bear one end, the session's position after it. In a list that was filled from a token mark
 * of 0, each call on the session and the records that the last one left, ends never fall. For kinds 17 to 21 the source
 * from the position up to the end is the literal or the comment as it is written, with both quotes; a record that
 * puretakoi_read_single or puretakoi_read_double wrote begins after the opening quote. In a file that an older writer
 * made the end is 0: take 0 as not stated. No step or reading that writes a record of non-zero length ends at 0. */

#define PURETAKOI_RECORD 8          /* how many numbers a record has */
#define PURETAKOI_RECORD_KIND 0     /* which token, below */
#define PURETAKOI_RECORD_DETAIL 1   /* the indentation of an end of a text block, else 0 */
#define PURETAKOI_RECORD_LINE 2     /* where it stands */
#define PURETAKOI_RECORD_COLUMN 3   /* in bytes */
#define PURETAKOI_RECORD_POSITION 4 /* in bytes from the source's start */
#define PURETAKOI_RECORD_START 5    /* its value: the first byte in the pool */
#define PURETAKOI_RECORD_LENGTH 6   /* and how many bytes */
#define PURETAKOI_RECORD_END 7      /* where the step or reading ended that wrote it, from the source's start; or 0 */

#define PURETAKOI_KIND_INLINE_HTML 1                   /* text outside tags */
#define PURETAKOI_KIND_OPEN_TAG_FULL 2                 /* <?php, its value in the script's letter case */
#define PURETAKOI_KIND_OPEN_TAG_ECHO 3                 /* <?= */
#define PURETAKOI_KIND_OPEN_TAG_SHORT 4                /* <? */
#define PURETAKOI_KIND_STRING_PART 5                   /* text before an interpolation or a closer */
#define PURETAKOI_KIND_DOLLAR_LEFT_BRACE 6             /* ${ */
#define PURETAKOI_KIND_LEFT_BRACE 7                    /* { before a variable */
#define PURETAKOI_KIND_DOUBLE_QUOTE 8                  /* the closing double quote */
#define PURETAKOI_KIND_BACKTICK 9                      /* the closing backtick */
#define PURETAKOI_KIND_VARIABLE 10                     /* $name */
#define PURETAKOI_KIND_END_DOC_STRING_NONE 11          /* the end of a text block, not indented */
#define PURETAKOI_KIND_END_DOC_STRING_SPACE 12         /* the end of a text block, indented by spaces */
#define PURETAKOI_KIND_END_DOC_STRING_TAB 13           /* the end of a text block, indented by tabs */
#define PURETAKOI_KIND_IDENTIFIER 14                   /* a name */
#define PURETAKOI_KIND_QUESTION_ARROW 15               /* ?-> */
#define PURETAKOI_KIND_ARROW 16                        /* -> */
#define PURETAKOI_KIND_LITERAL_SINGLE_QUOTED_STRING 17 /* '..' */
#define PURETAKOI_KIND_LITERAL_DOUBLE_QUOTED_STRING 18 /* ".." without interpolation */
#define PURETAKOI_KIND_LITERAL_INTEGER 19              /* a whole number */
#define PURETAKOI_KIND_LITERAL_FLOAT 20                /* a number with a point or an exponent */
#define PURETAKOI_KIND_COMMENT 21                      /* a comment: its bytes as they stand; a line's without its LF, but with the CR of a CRLF */

/* ---- What `puretakoi_find` has found: 3 numbers, or 4. A longer slice is as good; what lies after is not touched. The
 * fourth is written where it is lent. */

#define PURETAKOI_FOUND 3        /* how many numbers it has at least */
#define PURETAKOI_FOUND_ENDED 4  /* how many it has with the end */
#define PURETAKOI_FOUND_ANY 0    /* 1 where a record is at or before the byte, 0 where none is */
#define PURETAKOI_FOUND_RECORD 1 /* its number, from 0: it begins at list[PURETAKOI_RECORD * number]; 0 for none */
#define PURETAKOI_FOUND_LOOKS 2  /* how many records were looked at: at most 17 */
#define PURETAKOI_FOUND_END 3    /* where the step ended that wrote it, as its record says; 0 for none */

/* ---- Refusals. Each call gives the number, or 0. */

#define PURETAKOI_UNEXPECTED_END_OF_FILE 1  /* something is still open where the source ends */
#define PURETAKOI_INVALID_UNICODE_ESCAPE 2  /* \u{..} names no code point */
#define PURETAKOI_INVALID_OCTAL_ESCAPE 3    /* an octal escape is over 377: the place is after its third digit. Never */
                                            /* with PURETAKOI_CHOICE_OCTAL_MANUAL, which reads it as a byte: the low */
                                            /* eight bits of the three digits before the place */
#define PURETAKOI_INVALID_DOC_INDENTATION 4 /* a closing line mixes spaces and tabs */
#define PURETAKOI_NO_PROPERTY 5             /* neither arrow nor name where a property is looked for */
#define PURETAKOI_WAIT 6                    /* lend more of the script, or announce its end; the open text is then read again */
#define PURETAKOI_LIST_FULL 7               /* more tokens than places left */
#define PURETAKOI_POOL_FULL 8               /* more value bytes than pool left */
#define PURETAKOI_STACK_FULL 9              /* a frame would be the 65th */
#define PURETAKOI_OUT_OF_PLACE 10           /* the call does not fit, or a slice is too short */
#define PURETAKOI_TOO_LARGE 11              /* source or pool over 65,536 bytes, or list over 65,537 tokens */
#define PURETAKOI_BAD_SESSION 12            /* no session, or one outside its bounds; a count above a list's places */
#define PURETAKOI_STRAY_INDENTATION 13      /* a row of a sheet starts with less than the closing line's indentation */

/* ---- Calls with a session.
 *
 * The answer goes to `answer` and its refusal, or 0, is given back. `session` is changed where the answer is done or finished, and
 * then alone, but for `puretakoi_walk`. A session of fewer than 199 numbers or an answer of fewer than 5 is refused first, with 10,
 * and nothing is written, the answer neither: look at the number given back. `puretakoi_fresh` has no answer. */

/* A session before its script, with its choices: 0, or flags added up, as in PURETAKOI_CHOICE_SHEETS |
 * PURETAKOI_CHOICE_OCTAL_MANUAL. Refused, with nothing written: fewer than 199 numbers (10), a bit that is no flag
 * (12). A library that is older than this header may not have each flag: then the choice is refused with 12. */
uint32_t puretakoi_fresh(uint32_t choices, uint32_t *session, size_t session_len);

/* One step from the cursor on. `end` is 0 where more of the script may come; any other number announces the end. New records and value
 * bytes stand from the marks on: at most two records, and no more value bytes than the step passes, so that 16 numbers and a pool as long
 * as the source are room for any step from marks of 0. */
uint32_t puretakoi_step(const uint8_t *src, size_t src_len, uint32_t end, uint32_t *session, size_t session_len, uint32_t *list,
                        size_t list_len, uint8_t *pool, size_t pool_len, uint32_t *answer, size_t answer_len);

/* At most `most` steps in one call, up to one that is not done: faster than a call for each. The answer is the last step's, or done.
 * What the steps before it wrote stays: where the walk is refused after a step that was done, the session stands before the refused one,
 * and list and pool hold what was read. Where the first step is refused all is as it was; with `most` 0 nothing is read, and the
 * answer is done, or 11 or 12. An answer of 6 numbers tells how many steps were done: all stands just as after so many. So after
 * LIST_FULL or POOL_FULL take the tokens, set both marks to 0 and walk on; from marks of 0, 16 numbers and a pool as long as the source
 * are room for a step at least. */
uint32_t puretakoi_walk(const uint8_t *src, size_t src_len, uint32_t end, uint32_t most, uint32_t *session, size_t session_len,
                        uint32_t *list, size_t list_len, uint8_t *pool, size_t pool_len, uint32_t *answer, size_t answer_len);

/* The number at the cursor. Refused with 10 where Scripting is not on top; so are the next two. */
uint32_t puretakoi_read_number(const uint8_t *src, size_t src_len, uint32_t end, uint32_t *session, size_t session_len,
                               uint32_t *list, size_t list_len, uint8_t *pool, size_t pool_len, uint32_t *answer,
                               size_t answer_len);

/* The single-quoted string whose text starts at the cursor, after its quote. */
uint32_t puretakoi_read_single(const uint8_t *src, size_t src_len, uint32_t end, uint32_t *session, size_t session_len,
                               uint32_t *list, size_t list_len, uint8_t *pool, size_t pool_len, uint32_t *answer,
                               size_t answer_len);

/* The double-quoted string whose text starts at the cursor, after its quote, up to its end or its first interpolation. */
uint32_t puretakoi_read_double(const uint8_t *src, size_t src_len, uint32_t end, uint32_t *session, size_t session_len,
                               uint32_t *list, size_t list_len, uint8_t *pool, size_t pool_len, uint32_t *answer,
                               size_t answer_len);

/* The cursor goes on by `count` bytes. Refused past the end (10). */
uint32_t puretakoi_skip(const uint8_t *src, size_t src_len, size_t count, uint32_t *session, size_t session_len, uint32_t *answer,
                        size_t answer_len);

/* One frame more: its number, and its label's start and length, which are not looked at for a frame without a label. Refused: no such
 * frame or no label (10), a 65th frame (9). */
uint32_t puretakoi_push(const uint8_t *src, size_t src_len, uint32_t frame, uint32_t start, uint32_t len, uint32_t *session,
                        size_t session_len, uint32_t *answer, size_t answer_len);

/* One frame less. Refused at depth 1 (10). */
uint32_t puretakoi_pop(const uint8_t *src, size_t src_len, uint32_t *session, size_t session_len, uint32_t *answer,
                       size_t answer_len);

/* ---- Calls without a session. */

/* All that a byte counts as, flags added up; 0 for a byte that counts as none. docs/BYTES.md has all 256. */
#define PURETAKOI_CLASS_BLANK 1       /* a space or a tab */
#define PURETAKOI_CLASS_OCTAL 2       /* a digit, 0 to 7 */
#define PURETAKOI_CLASS_DIGIT 4       /* a digit, 0 to 9 */
#define PURETAKOI_CLASS_HEX 8         /* a hex digit, 0 to 9, A to F, a to f */
#define PURETAKOI_CLASS_LETTER 16     /* a letter of ASCII */
#define PURETAKOI_CLASS_START 32      /* an identifier may start with it: a letter, _, 0x80 to 0xFF */
#define PURETAKOI_CLASS_IDENTIFIER 64 /* an identifier may have it after its start: digits too */
#define PURETAKOI_CLASS_SIGN 128      /* one of ' " ` . { } ? < / #: in a script each may begin something of its own */

uint32_t puretakoi_classes_of(uint8_t byte);

/* How many bytes the identifier at `at` has, 0 for none: it is src[at] up to src[at + length - 1]. */
size_t puretakoi_peek_identifier(const uint8_t *src, size_t src_len, size_t at);

/* Line, column and position in three numbers, moved past all bytes of a part. Refused: part too large (11), no three numbers (10),
 * a number over 65,537 (12). */
uint32_t puretakoi_past(const uint8_t *part, size_t part_len, uint32_t *span, size_t span_len);

/* All records of a list as a file of 32 bytes each: lend 8 * session[PURETAKOI_TOKENS] numbers for those up to the mark. Refused: too many (11), no whole number of records (10), too short a file (8). */
uint32_t puretakoi_list_to_file(const uint32_t *list, size_t list_len, uint8_t *file, size_t file_len);

/* All records of a file as a list. Refused: too many (11), no whole number of records (10), too short a list (7). */
uint32_t puretakoi_file_to_list(const uint8_t *file, size_t file_len, uint32_t *list, size_t list_len);

/* Which token is under the finger: the last of the first `count` records whose position is at or before `byte`, a
 * position in the script, from 0. `count` is session[PURETAKOI_TOKENS] for all records of a session. At most 17 records
 * are looked at, by halving. In a list that was filled from a token mark of 0 by steps, walks and readings, each on the
 * session and the records that the last one left, it is what a look at every record would find: of records at one
 * position the last. In a list whose positions fall it is what the halving comes to: a record at or before the byte, or
 * none, and the same each time. A byte past all records gives the last. A fourth number of `found` is the record's end:
 * a byte before it lies in the token, or in text that its step passed. Refused, with nothing written: a `found` of
 * fewer than 3 numbers (10), a list of more than 65,537 places (11), a count above its places (12). */
uint32_t puretakoi_find(const uint32_t *list, size_t list_len, size_t count, size_t byte, uint32_t *found,
                        size_t found_len);

#ifdef __cplusplus
}
#endif

#endif
