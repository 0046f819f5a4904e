/* Writes the literal or the comment under a byte of a script as it stands there, with its quotes and nothing after it:
 * cut [FILE] BYTE, where bytes count from 0 and a script without FILE comes from standard input. A literal is a number
 * or a quoted string without a variable in it; text blocks are none. An octal escape over 377 is taken, as the manual
 * has it. Of a script that is refused, what was read before can be cut. Where nothing can be cut, a line on standard
 * error tells what is there and what to do.
 * Status: 0 for what is cut, 1 for a byte that is not read because the script is refused, 2 for a wrong call or file
 * and where no literal or comment has the byte. C or C++. */
#include <errno.h>
#include <stdio.h>
#include <stdlib.h>
#include <string.h>

#include "puretakoi_words.h"

/* Room for any script: it has at most one token more than bytes, and no more value bytes than bytes. */
enum { NUMBERS = PURETAKOI_RECORD * PURETAKOI_MOST_TOKENS };
static uint8_t script[PURETAKOI_MOST_BYTES + 1], pool[PURETAKOI_MOST_BYTES];
static uint32_t session[PURETAKOI_SESSION], list[NUMBERS], answer[PURETAKOI_ANSWER];
static uint32_t found[PURETAKOI_FOUND_ENDED];

static int wrong_usage(void) {
    fputs("cut: call it as cut [FILE] BYTE, where BYTE is a whole number, 0 for the script's first byte\n", stderr);
    return 2;
}

/* The system's reason is told too. */
static int fault(const char *file, const char *meaning, const char *advice) {
    fprintf(stderr, "cut: %s %s (%s): %s\n", file, meaning, strerror(errno), advice);
    return 2;
}

/* The byte is not read, for the script is refused before it or at it. */
static int unread(size_t byte, uint32_t refusal) {
    fprintf(stderr, "cut: byte %zu is not read: refused %u at %u:%u: %s. %s\n", byte, refusal,
            answer[PURETAKOI_ANSWER_LINE], answer[PURETAKOI_ANSWER_COLUMN], puretakoi_refusal_meaning(refusal),
            puretakoi_refusal_advice(refusal));
    return 1;
}

/* The byte is that of another token, or of none. */
static int no_literal(size_t byte, const uint32_t *record) {
    fprintf(stderr,
            "cut: no literal or comment has byte %zu (%s %u:%u %s, which ends before byte %u): "
            "name a byte of a number, a comment or a quoted string without a variable in it\n",
            byte, byte < found[PURETAKOI_FOUND_END] ? "in" : "after", record[PURETAKOI_RECORD_LINE],
            record[PURETAKOI_RECORD_COLUMN], puretakoi_kind_name(record[PURETAKOI_RECORD_KIND]),
            found[PURETAKOI_FOUND_END]);
    return 2;
}

/* Writes a record's bytes of the script, from its position up to its end, if it is a literal or a comment. */
static int cut(size_t byte, const uint32_t *record) {
    uint32_t kind = record[PURETAKOI_RECORD_KIND], end = found[PURETAKOI_FOUND_END];
    if (kind < PURETAKOI_KIND_LITERAL_SINGLE_QUOTED_STRING || PURETAKOI_KIND_COMMENT < kind || end <= byte) {
        return no_literal(byte, record);
    }
    fwrite(script + record[PURETAKOI_RECORD_POSITION], 1, end - record[PURETAKOI_RECORD_POSITION], stdout);
    return 0;
}

/* The answer for a script of so many bytes; the program's status. */
static int answer_for(size_t len, size_t byte) {
    puretakoi_fresh(PURETAKOI_CHOICE_SHEETS | PURETAKOI_CHOICE_OCTAL_MANUAL, session, PURETAKOI_SESSION);
    uint32_t refusal = puretakoi_walk(script, len, 1, UINT32_MAX, session, PURETAKOI_SESSION, list, NUMBERS, pool,
                                      sizeof pool, answer, PURETAKOI_ANSWER);
    if (refusal != 0 && session[PURETAKOI_POSITION] <= byte) {
        return unread(byte, refusal);
    }
    /* Never refused, and a record is found: what was read has one at byte 0, and the list has room for all. */
    puretakoi_find(list, NUMBERS, session[PURETAKOI_TOKENS], byte, found, PURETAKOI_FOUND_ENDED);
    return cut(byte, list + PURETAKOI_RECORD * found[PURETAKOI_FOUND_RECORD]);
}

int main(int count, char **words) {
    const char *byte = 1 < count ? words[count - 1] : "", *file = count == 3 ? words[1] : NULL;
    if (3 < count || *byte == '\0' || byte[strspn(byte, "0123456789")] != '\0') {
        return wrong_usage();
    }
    FILE *in = file == NULL ? stdin : fopen(file, "rb");
    size_t len = in == NULL ? 0 : fread(script, 1, sizeof script, in);
    if (in == NULL || ferror(in)) {
        file = file == NULL ? "standard input" : file;
        return fault(file, "can't be read", "name a script, or none for standard input");
    }
    int status = answer_for(len, strtoull(byte, NULL, 10)); /* a number that is too large to hold is the largest */
    if (fflush(stdout) != 0 || ferror(stdout)) {
        return fault("standard output", "can't be written", "make room for it");
    }
    return status;
}
