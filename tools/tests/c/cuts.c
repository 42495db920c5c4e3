/* Runs a script in up to three parts, cut at each pair of the given places, and compares the replies with those of the script.
 *
 *     cuts SCRIPT REPLIES STEP PLACE ..
 *
 * Every STEP-th pair is taken. Meanwhile a second session has the script in two parts, cut at the second place. The status is 1 at the first difference. */
#include "betable.h"
#include "files.h"

#include <stdio.h>
#include <stdlib.h>
#include <string.h>

/* Runs a part, and appends its replies to the previous ones. */
static void run(betable_session *session, bytes script, size_t from, size_t to, bytes *replies, size_t room) {
    if (betable_run(session, script.at + from, to - from) != BETABLE_DONE) {
        exit(4);
    }
    size_t length = betable_replies_length(session);
    if (replies->length + length > room) {
        exit(1);
    }
    /* In two steps; the second begins within the replies. */
    size_t first = betable_copy_replies(session, 0, replies->at + replies->length, length / 2);
    size_t second = betable_copy_replies(session, first, replies->at + replies->length + first, room - replies->length - first);
    if (first + second != length) {
        exit(1);
    }
    replies->length += length;
}

static void expect(bytes found, bytes wanted) {
    if (found.length != wanted.length || memcmp(found.at, wanted.at, wanted.length) != 0) {
        exit(1);
    }
}

int main(int count, char **words) {
    bytes script = file_bytes(words[1]), wanted = file_bytes(words[2]);
    size_t room = wanted.length + 1, step = strtoul(words[3], NULL, 10), pair = 0;
    unsigned char *one = malloc(room), *other = malloc(room);
    for (int high = 4; high < count; high++) {
        size_t second = strtoul(words[high], NULL, 10);
        betable_session two = BETABLE_CLOSED;
        bytes of_two = {other, 0};
        if (betable_open(&two) != BETABLE_DONE) {
            return 4;
        }
        run(&two, script, 0, second, &of_two, room);
        for (int low = 4; low <= high; low++) {
            if (pair++ % step != 0) {
                continue;
            }
            size_t first = strtoul(words[low], NULL, 10);
            betable_session three = BETABLE_CLOSED;
            bytes of_three = {one, 0};
            if (betable_open(&three) != BETABLE_DONE) {
                return 4;
            }
            run(&three, script, 0, first, &of_three, room);
            run(&three, script, first, second, &of_three, room);
            run(&three, script, second, script.length, &of_three, room);
            betable_close(&three);
            expect(of_three, wanted);
        }
        run(&two, script, second, script.length, &of_two, room);
        betable_close(&two);
        expect(of_two, wanted);
    }
    free(one), free(other), free(script.at), free(wanted.at);
    return 0;
}
