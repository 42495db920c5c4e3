/* Refuses each allocation of a session, one per session, alone and with all that follow it, and checks the replies and the state of the table.
 *
 *     refused_memory SCRIPT PROBE PLACE ..
 *
 * Linked with -Wl,--wrap=malloc,--wrap=realloc,--wrap=free. PLACE .. are the places at which the commands of SCRIPT begin, and its end; the replies to PROBE
 * show the state of a table. A run of SCRIPT ends with DONE, all replies and the state after it; with OUT_OF_MEMORY, the replies to the first commands, and
 * the state after these, or after one more, or a lost table; or with REPLY_CUT, the replies to the first commands and a part of one more, and the state after
 * that one. Then the session is closed, and all its memory is freed. Prints the number of refused allocations, and how the runs ended. */
#include "betable.h"
#include "files.h"
#include "refusals.h"

#include <stdio.h>
#include <stdlib.h>
#include <string.h>

/* The state of a table, and the length of the replies up to there. */
typedef struct {
    bytes state;
    size_t length;
} moment;

static bytes script, probe, wanted;
static moment *moments;
static size_t command_count;
static unsigned char found[1 << 20];
static long lost = 0, between = 0, cut = 0;

static int fail(const char *what, long request) {
    printf("%s at request %ld\n", what, request);
    return 1;
}

/* The replies to a script, in a new block. */
static bytes replies(betable_session *session, const unsigned char *given, size_t length) {
    if (betable_run(session, given, length) != BETABLE_DONE) {
        exit(4);
    }
    bytes text = {NULL, betable_replies_length(session)};
    text.at = malloc(text.length + 1);
    if (betable_copy_replies(session, 0, text.at, text.length) != text.length) {
        exit(4);
    }
    return text;
}

static int is_same(bytes one, bytes other) { return one.length == other.length && memcmp(one.at, other.at, one.length) == 0; }

/* The state after each number of commands, and the replies up to there. */
static void note_moments(char **places) {
    moments = malloc((command_count + 1) * sizeof *moments);
    for (size_t count = 0; count <= command_count; count++) {
        betable_session session = BETABLE_CLOSED;
        if (betable_open(&session) != BETABLE_DONE) {
            exit(4);
        }
        bytes text = replies(&session, script.at, strtoul(places[count], NULL, 10));
        moments[count] = (moment){replies(&session, probe.at, probe.length), text.length};
        betable_close(&session);
        wanted = text;
        if (count < command_count) {
            free(text.at);
        }
    }
}

/* Whether the table of a session is lost, according to a reply when memory is available. */
static int is_lost_by_reply(betable_session *session) {
    static const unsigned char get[] = "get 1\n";
    bytes text = replies(session, get, sizeof get - 1);
    int is_lost = text.length >= 17 && memcmp(text.at, "refused 18 Failed", 17) == 0;
    free(text.at);
    return is_lost;
}

/* Whether the session has the state after that many commands. */
static int has_state(betable_session *session, size_t count) {
    bytes state = replies(session, probe.at, probe.length);
    int has = count <= command_count && is_same(state, moments[count].state);
    free(state.at);
    return has;
}

/* Checks what a run left that ended with this status and this many bytes of replies. */
static int check(betable_session *session, betable_status status, size_t length, long request) {
    size_t whole = 0;
    while (whole < command_count && moments[whole + 1].length <= length) {
        whole++;
    }
    int is_lost = betable_is_lost(session);
    if (is_lost != is_lost_by_reply(session)) {
        return fail("a table that is lost or not", request);
    }
    switch (status) {
    case BETABLE_DONE:
        return whole == command_count && has_state(session, whole) ? 0 : fail("replies or a state that is not the last", request);
    case BETABLE_OUT_OF_MEMORY:
        if (moments[whole].length != length) {
            return fail("a reply that is cut", request);
        }
        lost += is_lost;
        between += !is_lost && !has_state(session, whole);
        return is_lost || has_state(session, whole) || has_state(session, whole + 1) ? 0 : fail("a state that is not the next", request);
    case BETABLE_REPLY_CUT:
        cut++;
        return has_state(session, whole + 1) ? 0 : fail("a state that is not that of the cut reply", request);
    default:
        return fail("another status", request);
    }
}

/* One session with one allocation that is refused. 2: that allocation was not reached. */
static int one(long request) {
    long before = blocks;
    betable_session session = BETABLE_CLOSED;
    refuse(request);
    betable_status status = betable_open(&session);
    if (status == BETABLE_OUT_OF_MEMORY) {
        end_refusals();
        return betable_close(&session) == BETABLE_NOT_OPEN && blocks == before ? 0 : fail("open after a session that is not closed", request);
    }
    status = betable_run(&session, script.at, script.length);
    int is_reached = end_refusals();
    size_t length = betable_copy_replies(&session, 0, found, sizeof found);
    if (length > wanted.length || memcmp(found, wanted.at, length) != 0 || length != betable_replies_length(&session)) {
        return fail("other replies", request);
    }
    if (status != BETABLE_DONE && betable_refused_count(&session) != 0) {
        return fail("a count of refused commands", request);
    }
    if (check(&session, status, length, request) != 0) {
        return 1;
    }
    if (betable_close(&session) != BETABLE_DONE || session.at != NULL || blocks != before) {
        return fail("memory that is not given back", request);
    }
    return is_reached ? 0 : 2;
}

int main(int count, char **words) {
    if (count < 4) {
        return 3;
    }
    script = file_bytes(words[1]), probe = file_bytes(words[2]);
    command_count = (size_t)count - 4;
    note_moments(words + 3);
    long requests[2] = {0, 0};
    for (is_one = 0; is_one < 2; is_one++) {
        int ended;
        while ((ended = one(requests[is_one])) == 0) {
            requests[is_one]++;
        }
        if (ended == 1) {
            return 1;
        }
    }
    printf("%ld and %ld requests refused: %ld tables lost, %ld commands without a reply, %ld replies cut\n", requests[0], requests[1], lost, between, cut);
    return requests[0] > 0 && requests[1] > 0 ? 0 : 5;
}
