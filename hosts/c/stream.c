/* Reads a script in pieces, walks as the bytes come, and prints its tokens as the program `rows` does, for up to 65,536 bytes:
 * stream [-p PIECE] [FILE], where the pieces have PIECE bytes (else 4096) and a script without FILE comes from standard input.
 * The output is the same for every PIECE. Status: 0 for a script read to its end, 1 for one refused, 2 for a wrong call or file. */
#include <errno.h>
#include <stdbool.h>
#include <stdio.h>
#include <stdlib.h>
#include <string.h>

#include "puretakoi.h"

enum { PLACES = 512, DEFAULT_PIECE = 4096, LONG = 4096 };
enum { STATUS_READ = 0, STATUS_REFUSED = 1, STATUS_FAULT = 2 };

/* What the command line asks for; `file` is null for standard input. */
struct request {
    size_t piece;
    const char *file;
};

/* All bytes so far, one more than a script may have, and a session over them. List and pool have room for many steps. */
struct host {
    uint8_t script[PURETAKOI_MOST_BYTES + 1];
    size_t filled;
    uint32_t session[PURETAKOI_SESSION];
    uint32_t list[PLACES * PURETAKOI_RECORD];
    uint8_t pool[PURETAKOI_MOST_BYTES];
    uint32_t answer[PURETAKOI_ANSWER];
};

/* What the bytes so far came to. */
enum state { WAITING, ENDED, REFUSED };

static int wrong_usage(void) {
    fputs("stream: call it as stream [-p PIECE] [FILE], where PIECE is how many bytes to read at a time, 1 or more\n", stderr);
    return STATUS_FAULT;
}

/* The system's reason is told too. */
static int unreadable(const char *file) {
    fprintf(stderr, "stream: %s can't be read (%s): name a script, or none for standard input\n",
            file == NULL ? "standard input" : file, strerror(errno));
    return STATUS_FAULT;
}

static int unwritable(void) {
    fprintf(stderr, "stream: standard output can't be written (%s): make room for it\n", strerror(errno));
    return STATUS_FAULT;
}

/* A whole number from 1 on; one that is too large to hold is as good as the largest. */
static bool take_piece(const char *word, size_t *piece) {
    if (*word == '\0' || word[strspn(word, "0123456789")] != '\0') {
        return false;
    }
    unsigned long long number = strtoull(word, NULL, 10);
    *piece = number < PURETAKOI_MOST_BYTES + 1 ? (size_t)number : PURETAKOI_MOST_BYTES + 1;
    return 0 < number;
}

static bool take_words(int count, char **words, struct request *request) {
    *request = (struct request){DEFAULT_PIECE, NULL};
    for (int i = 1; i < count; i++) {
        if (strcmp(words[i], "-p") == 0) {
            if (++i == count || !take_piece(words[i], &request->piece)) {
                return false;
            }
        } else if (words[i][0] == '-' || request->file != NULL) {
            return false;
        } else {
            request->file = words[i];
        }
    }
    return true;
}

/* A row for each token of the list; then list and pool are empty again. */
static void print_rows(struct host *host) {
    for (uint32_t place = 0; place < host->session[PURETAKOI_TOKENS]; place++) {
        const uint32_t *record = host->list + place * PURETAKOI_RECORD;
        printf("%u %u %u %u %u %u %u\n", record[PURETAKOI_RECORD_KIND], record[PURETAKOI_RECORD_LINE],
               record[PURETAKOI_RECORD_COLUMN], record[PURETAKOI_RECORD_POSITION], record[PURETAKOI_RECORD_DETAIL],
               record[PURETAKOI_RECORD_LENGTH], record[PURETAKOI_RECORD_END]);
    }
    host->session[PURETAKOI_TOKENS] = 0;
    host->session[PURETAKOI_BYTES] = 0;
}

static void print_refusal(const uint32_t *answer) {
    printf("refused %u %u %u %u\n", answer[PURETAKOI_ANSWER_REFUSAL], answer[PURETAKOI_ANSWER_LINE], answer[PURETAKOI_ANSWER_COLUMN],
           answer[PURETAKOI_ANSWER_POSITION]);
}

/* Whether a walk was refused only because it filled a table: the rows are printed, and the next walk goes on. */
static bool is_full(uint32_t refusal, uint32_t tokens) {
    return (refusal == PURETAKOI_LIST_FULL || refusal == PURETAKOI_POOL_FULL) && 0 < tokens;
}

/* Walks over the first `len` bytes until they wait for more, are read to their end, or are refused. */
static enum state walk(struct host *host, size_t len, bool end) {
    for (;;) {
        uint32_t refusal = puretakoi_walk(host->script, len, end, UINT32_MAX, host->session, PURETAKOI_SESSION, host->list,
                                          PLACES * PURETAKOI_RECORD, host->pool, sizeof host->pool, host->answer, PURETAKOI_ANSWER);
        uint32_t tokens = host->session[PURETAKOI_TOKENS];
        print_rows(host);
        if (refusal == PURETAKOI_WAIT) {
            return WAITING;
        }
        if (refusal != 0 && !is_full(refusal, tokens)) {
            print_refusal(host->answer);
            return REFUSED;
        }
        if (host->answer[PURETAKOI_ANSWER_WAY] == PURETAKOI_FINISHED) {
            printf("end %u\n", host->session[PURETAKOI_POSITION]);
            return ENDED;
        }
    }
}

/* Walks over all bytes so far. Of too many the first 65,536 are read, so that the rows don't depend on the pieces; then the library
 * refuses them. */
static enum state walk_so_far(struct host *host, bool end) {
    if (host->filled <= PURETAKOI_MOST_BYTES) {
        return walk(host, host->filled, end);
    }
    enum state state = walk(host, PURETAKOI_MOST_BYTES, false);
    return state == WAITING ? walk(host, host->filled, false) : state;
}

/* How many bytes are worth another walk after a wait. It reads the open text again from its start: one of more than LONG bytes is left
 * until it has doubled, so that what it costs grows with its length, not with its square. One byte too many for a script is always
 * enough. */
static size_t enough(const struct host *host) {
    size_t open = host->filled - host->session[PURETAKOI_POSITION];
    size_t wanted = host->filled + (LONG < open ? open : 1);
    return wanted < sizeof host->script ? wanted : sizeof host->script;
}

/* Reads pieces, walks where there are enough bytes or the script is over, shows the rows, and so on; the program's status. */
static int read_script(struct host *host, FILE *in, const struct request *request) {
    enum state state = WAITING;
    size_t wanted = 1;
    puretakoi_fresh(0, host->session, PURETAKOI_SESSION); /* no choice is made, as in the program `rows` */
    while (state == WAITING) {
        size_t room = sizeof host->script - host->filled;
        size_t asked = request->piece < room ? request->piece : room;
        size_t got = fread(host->script + host->filled, 1, asked, in);
        if (ferror(in)) {
            return unreadable(request->file);
        }
        host->filled += got;
        if (host->filled < wanted && got == asked) {
            continue;
        }
        state = walk_so_far(host, got < asked);
        wanted = enough(host);
        if (fflush(stdout) != 0 || ferror(stdout)) {
            return unwritable();
        }
    }
    return state == ENDED ? STATUS_READ : STATUS_REFUSED;
}

int main(int count, char **words) {
    static struct host host;
    struct request request;
    if (!take_words(count, words, &request)) {
        return wrong_usage();
    }
    FILE *in = request.file == NULL ? stdin : fopen(request.file, "rb");
    if (in == NULL) {
        return unreadable(request.file);
    }
    int status = read_script(&host, in, &request);
    fclose(in);
    return status;
}
