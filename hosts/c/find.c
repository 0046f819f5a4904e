/* Prints which token is under a byte of a script: find [FILE] BYTE, where bytes count from 0 and a script without FILE
 * comes from standard input. The token is the last one at or before the byte, nowdoc blocks read as sheets and octal
 * escapes over 377 as the manual has them. A line has its place, its number from 0, its kind, how many records were
 * looked at and at which byte its step ended, or `none` and the looks; its value follows. Of a script that is refused
 * the refusal comes first, and the answer is for what was read before.
 * Status: 0 for a script read to its end, 1 for one refused, 2 for a wrong call or file. */
#include <errno.h>
#include <stdio.h>
#include <stdlib.h>
#include <string.h>

#include "puretakoi_words.h"

/* Room for any script: it has at most one token more than bytes, and no more value bytes than bytes. */
enum { NUMBERS = PURETAKOI_RECORD * PURETAKOI_MOST_TOKENS };
static uint8_t script[PURETAKOI_MOST_BYTES + 1], pool[PURETAKOI_MOST_BYTES];
static uint32_t session[PURETAKOI_SESSION], list[NUMBERS], answer[PURETAKOI_ANSWER];
static uint32_t found[PURETAKOI_FOUND_ENDED];

static int wrong_usage(void) {
    fputs("find: call it as find [FILE] BYTE, where BYTE is a whole number, 0 for the script's first byte\n", stderr);
    return 2;
}

/* The system's reason is told too. */
static int fault(const char *file, const char *meaning, const char *advice) {
    fprintf(stderr, "find: %s %s (%s): %s\n", file, meaning, strerror(errno), advice);
    return 2;
}

static void print_refusal(uint32_t refusal) {
    printf("refused %u at %u:%u: %s. %s\n", refusal, answer[PURETAKOI_ANSWER_LINE], answer[PURETAKOI_ANSWER_COLUMN],
           puretakoi_refusal_meaning(refusal), puretakoi_refusal_advice(refusal));
}

static void print_found(void) {
    uint32_t number = found[PURETAKOI_FOUND_RECORD], looks = found[PURETAKOI_FOUND_LOOKS];
    const uint32_t *record = list + PURETAKOI_RECORD * number;
    if (found[PURETAKOI_FOUND_ANY] == 0) {
        printf("none (looks: %u)\n", looks);
        return;
    }
    printf("%u:%u token %u: %s (looks: %u, end: %u)\n", record[PURETAKOI_RECORD_LINE], record[PURETAKOI_RECORD_COLUMN],
           number, puretakoi_kind_name(record[PURETAKOI_RECORD_KIND]), looks, found[PURETAKOI_FOUND_END]);
    fwrite(pool + record[PURETAKOI_RECORD_START], 1, record[PURETAKOI_RECORD_LENGTH], stdout);
    putchar('\n');
}

/* The answer for a script of so many bytes; the program's status. */
static int answer_for(size_t len, size_t byte) {
    puretakoi_fresh(PURETAKOI_CHOICE_SHEETS | PURETAKOI_CHOICE_OCTAL_MANUAL, session, PURETAKOI_SESSION);
    uint32_t refusal = puretakoi_walk(script, len, 1, UINT32_MAX, session, PURETAKOI_SESSION, list, NUMBERS, pool,
                                      sizeof pool, answer, PURETAKOI_ANSWER);
    if (refusal != 0) {
        print_refusal(refusal);
    }
    /* Never refused: the list has as many places as a list may have, and the mark is within it. */
    puretakoi_find(list, NUMBERS, session[PURETAKOI_TOKENS], byte, found, PURETAKOI_FOUND_ENDED);
    print_found();
    return refusal == 0 ? 0 : 1;
}

int main(int count, char **words) {
    const char *byte = 1 < count ? words[count - 1] : "", *file = count == 3 ? words[1] : NULL;
    if (3 < count || *byte == '\0' || byte[strspn(byte, "0123456789")] != '\0') {
        return wrong_usage();
    }
    FILE *in = file == NULL ? stdin : fopen(file, "rb");
    size_t len = in == NULL ? 0 : fread(script, 1, sizeof script, in);
    if (in == NULL || ferror(in)) {
        file = file == NULL ? "standard input" : file;
        return fault(file, "can't be read", "name a script, or none for standard input");
    }
    int status = answer_for(len, strtoull(byte, NULL, 10)); /* a number that is too large to hold is the largest */
    if (fflush(stdout) != 0 || ferror(stdout)) {
        return fault("standard output", "can't be written", "make room for it");
    }
    return status;
}
