/* A service in C that keeps a table alive: it runs the files that its words name one after the other on one table, and prints the replies.
 *
 *     example SCRIPT ..
 *
 * Where no file is named it makes a table, puts two rows into it, and reads one. The status is 1 where memory or a file was wanting, and 2 where a command
 * was refused. Build it with the line that bin/build_c prints. */
#include "betable.h"

#include <stdio.h>
#include <stdlib.h>
#include <string.h>

static const char *const STEPS[] = {
    "table 16 1024 256 1 id:int city:text qty:int\n",
    "batch\nput 1,Oslo,30\nput 2,\"Bergen, west\",10\nend\n",
    "get 2\n",
};

/* All bytes of a file in a block of their own, or NULL. */
static unsigned char *file_bytes(const char *path, size_t *length) {
    FILE *file = fopen(path, "rb");
    if (file == NULL) {
        return NULL;
    }
    size_t room = 65536, count;
    unsigned char *bytes = malloc(room);
    *length = 0;
    while (bytes != NULL && (count = fread(bytes + *length, 1, room - *length, file)) > 0) {
        *length += count;
        if (*length == room) {
            unsigned char *larger = realloc(bytes, room *= 2);
            if (larger == NULL) {
                free(bytes);
            }
            bytes = larger;
        }
    }
    if (ferror(file)) {
        free(bytes);
        bytes = NULL;
    }
    fclose(file);
    return bytes;
}

/* Runs one script, prints its replies, and returns the exit status. */
static int run(betable_session *session, const unsigned char *script, size_t length) {
    unsigned char piece[4096];
    betable_status status = betable_run(session, script, length);
    size_t count;
    for (size_t from = 0; (count = betable_copy_replies(session, from, piece, sizeof piece)) > 0; from += count) {
        fwrite(piece, 1, count, stdout);
    }
    if (status != BETABLE_DONE) {
        fprintf(stderr, "betable: out of memory%s\n", betable_is_lost(session) ? ", and the table is lost" : "");
        return 1;
    }
    return betable_refused_count(session) > 0 ? 2 : 0;
}

int main(int count, char **words) {
    betable_session session = BETABLE_CLOSED;
    int worst = 0;
    if (betable_open(&session) != BETABLE_DONE) {
        fputs("betable: out of memory\n", stderr);
        return 1;
    }
    for (size_t step = 0; count == 1 && step < sizeof STEPS / sizeof *STEPS; step++) {
        int status = run(&session, (const unsigned char *)STEPS[step], strlen(STEPS[step]));
        worst = worst == 1 || status == 0 ? worst : status;
    }
    for (int word = 1; word < count && worst != 1; word++) {
        size_t length;
        unsigned char *script = file_bytes(words[word], &length);
        if (script == NULL) {
            perror(words[word]);
            worst = 1;
            break;
        }
        int status = run(&session, script, length);
        worst = status == 0 ? worst : status;
        free(script);
    }
    betable_close(&session);
    return worst;
}
