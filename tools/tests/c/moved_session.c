/* A session that one thread opens, two use in turn under a lock, and another one closes. The replies of each run are checked, with their places and kinds. The
 * status is the number of the first check that fails, or 0. */
#include "betable.h"

#include <pthread.h>
#include <stdio.h>
#include <string.h>

enum { TURNS = 500 };

typedef struct {
    betable_session session;
    pthread_mutex_t lock;
    unsigned count; /* of the turns of both threads */
    int failed;     /* the first check that failed */
} shared;

typedef struct {
    shared *of;
    unsigned number;
} worker;

/* Whether the reply at a place has this text and kind. */
static bool is_reply(betable_session *session, size_t place, const char *text, betable_reply_kind kind) {
    unsigned char out[64];
    betable_reply_place found;
    if (!betable_reply(session, place, &found) || found.length != strlen(text) || found.length > sizeof out || found.kind != kind) {
        return false;
    }
    return betable_copy_replies(session, found.offset, out, found.length) == found.length && memcmp(out, text, found.length) == 0;
}

/* The next turn: the row 1 counts turns, and each has a row of its own. */
static int turn(shared *all, unsigned number) {
    char script[128], counted[32];
    betable_session *session = &all->session;
    const unsigned count = ++all->count;
    const int length = snprintf(script, sizeof script, "batch\nups 1,add,qty,1\nput %u,%u\nend\nget 1\nget x\n", 10 + count, number);
    snprintf(counted, sizeof counted, "row 1,%u\n", count);
    if (betable_run(session, (const unsigned char *)script, (size_t)length) != BETABLE_DONE || betable_reply_count(session) != 3) {
        return 10;
    }
    if (!is_reply(session, 0, "batch 2\n", BETABLE_CHANGED)) {
        return 11;
    }
    if (!is_reply(session, 1, counted, BETABLE_READ)) {
        return 12;
    }
    if (!is_reply(session, 2, "refused 6 BadField 1\n", BETABLE_COMMAND_REFUSED)) {
        return 13;
    }
    betable_reply_place unwritten = {7, 7, 7};
    if (betable_reply(session, 3, &unwritten) || unwritten.offset != 7 || unwritten.length != 7 || unwritten.kind != 7) {
        return 14;
    }
    return 0;
}

static void *work(void *given) {
    const worker *self = given;
    shared *all = self->of;
    for (int turns = 0; turns < TURNS; turns++) {
        pthread_mutex_lock(&all->lock);
        const int failed = turn(all, self->number);
        if (all->failed == 0) {
            all->failed = failed;
        }
        pthread_mutex_unlock(&all->lock);
    }
    return NULL;
}

/* The last thread: the counts of both, and the end. */
static void *end(void *given) {
    static const char script[] = "index by_qty on qty\nbuild by_qty 9999\nsums by_qty 1 qty\nfrom 1\nto 3\ngo\n";
    shared *all = given;
    char sums[64];
    snprintf(sums, sizeof sums, "sum %d %d 1\nsum %d %d 2\nsums 2\n", TURNS, TURNS, TURNS, 2 * TURNS);
    if (betable_run(&all->session, (const unsigned char *)script, sizeof script - 1) != BETABLE_DONE || !is_reply(&all->session, 2, sums, BETABLE_READ)) {
        all->failed = 20;
    }
    if (betable_close(&all->session) != BETABLE_DONE || betable_reply_count(&all->session) != 0) {
        all->failed = 21;
    }
    return NULL;
}

int main(void) {
    static const char script[] = "table 4 6 3 1 id:int qty:int\n";
    shared all = {.session = BETABLE_CLOSED, .lock = PTHREAD_MUTEX_INITIALIZER};
    worker workers[2] = {{&all, 1}, {&all, 2}};
    pthread_t threads[3];
    if (betable_open(&all.session) != BETABLE_DONE || betable_run(&all.session, (const unsigned char *)script, sizeof script - 1) != BETABLE_DONE) {
        return 1;
    }
    for (int place = 0; place < 2; place++) {
        if (pthread_create(&threads[place], NULL, work, &workers[place]) != 0) {
            return 2;
        }
    }
    for (int place = 0; place < 2; place++) {
        pthread_join(threads[place], NULL);
    }
    if (all.failed == 0 && pthread_create(&threads[2], NULL, end, &all) == 0) {
        pthread_join(threads[2], NULL);
    }
    return all.failed;
}
