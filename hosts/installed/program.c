/* Prints the tokens of the sheet on standard input, octal escapes as the manual has them, and its refusal in words:
 * C99 and C++, with what is installed. */
#include <puretakoi_words.h>
#include <stdio.h>

#if PURETAKOI_VERSION_MAJOR != 0
#error "this program is for version 0"
#endif

static uint8_t script[PURETAKOI_MOST_BYTES + 1], pool[PURETAKOI_MOST_BYTES];
static uint32_t session[PURETAKOI_SESSION], list[64 * PURETAKOI_RECORD], answer[PURETAKOI_ANSWER];

static void print_token(const uint32_t *record) {
    printf("%u:%u %u %u ", record[PURETAKOI_RECORD_LINE], record[PURETAKOI_RECORD_COLUMN],
           record[PURETAKOI_RECORD_KIND], record[PURETAKOI_RECORD_END]);
    fwrite(pool + record[PURETAKOI_RECORD_START], 1, record[PURETAKOI_RECORD_LENGTH], stdout);
    putchar('\n');
}

int main(void) {
    size_t length = fread(script, 1, sizeof script, stdin);
    puretakoi_fresh(PURETAKOI_CHOICE_SHEETS | PURETAKOI_CHOICE_OCTAL_MANUAL, session, PURETAKOI_SESSION);
    uint32_t refusal = puretakoi_walk(script, length, 1, UINT32_MAX, session, PURETAKOI_SESSION, list,
                                      64 * PURETAKOI_RECORD, pool, sizeof pool, answer, PURETAKOI_ANSWER);
    for (uint32_t at = 0; at < session[PURETAKOI_TOKENS]; at++)
        print_token(list + PURETAKOI_RECORD * at);
    printf("%d is %s\n", PURETAKOI_KIND_COMMENT, puretakoi_kind_name(PURETAKOI_KIND_COMMENT));
    if (refusal != 0)
        printf("%u:%u %s: %s. %s\n", answer[PURETAKOI_ANSWER_LINE], answer[PURETAKOI_ANSWER_COLUMN],
               puretakoi_refusal_name(refusal), puretakoi_refusal_meaning(refusal), puretakoi_refusal_advice(refusal));
    return 0;
}
