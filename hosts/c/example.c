/* Prints the rows of each nowdoc block of the script on standard input, the closing line's indentation taken off. */
#include <puretakoi.h>
#include <stdio.h>
static uint8_t script[PURETAKOI_MOST_BYTES + 1], pool[PURETAKOI_MOST_BYTES];
static uint32_t session[PURETAKOI_SESSION], list[2 * PURETAKOI_RECORD], answer[PURETAKOI_ANSWER];
int main(void) {
    size_t len = fread(script, 1, sizeof script, stdin);
    puretakoi_fresh(PURETAKOI_CHOICE_SHEETS | PURETAKOI_CHOICE_OCTAL_MANUAL, session, PURETAKOI_SESSION);
    while (answer[PURETAKOI_ANSWER_WAY] == PURETAKOI_DONE) {
        uint32_t frame = session[PURETAKOI_SLOTS + PURETAKOI_SLOT * (session[PURETAKOI_DEPTH] - 1)];
        session[PURETAKOI_TOKENS] = session[PURETAKOI_BYTES] = 0; /* list and pool are empty again */
        uint32_t refusal = puretakoi_step(script, len, 1, session, PURETAKOI_SESSION, list, 2 * PURETAKOI_RECORD,
                                          pool, sizeof pool, answer, PURETAKOI_ANSWER);
        if (refusal != 0)
            printf("refused %u at %u:%u\n", refusal, answer[PURETAKOI_ANSWER_LINE], answer[PURETAKOI_ANSWER_COLUMN]);
        else if (frame == PURETAKOI_FRAME_NOWDOC && list[PURETAKOI_RECORD_KIND] == PURETAKOI_KIND_STRING_PART)
            fwrite(pool, 1, list[PURETAKOI_RECORD_LENGTH], stdout), putchar('\n');
    }
    return answer[PURETAKOI_ANSWER_WAY] == PURETAKOI_REFUSED;
}
