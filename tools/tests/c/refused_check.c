/* Refuses each allocation of a check, one per session, alone and with all that follow it, and checks what it keeps and the state of the table. Then those of
 * betable_explain, which keeps the replies too.
 *
 * Linked with -Wl,--wrap=malloc,--wrap=realloc,--wrap=free. A check ends as it does with enough memory, or with OUT_OF_MEMORY and no command. The table is as
 * it was in both cases, and a check that is made again with enough memory ends as it should. A table that is lost, because memory ran out while it was changed,
 * refuses each command. After a session is closed, all memory is freed. Prints the number of refused allocations of each check, and how the checks ended. */
#include "packed.h"
#include "refusals.h"

/* The table on which a script is checked. */
typedef enum { NO_TABLE, NO_ROWS, FILLED } start;

enum { ROWS = 60 };

typedef struct {
    const char *name;
    start from;
    const char *script;
    /* The kind of each command as a digit: a betable_reply_kind. */
    const char *kinds;
} request;

#define TABLE "table 4 3 2 1 id:int\n"
#define LOAD "load\nid,city,ok,raw,qty\n3,\"a text in quotes, which\nhas a line break\",true,00ff,30\n1,Oslo,false,,10\n2,\"Bergen, west\",TRUE,ab,20\n.\n"
#define BATCH "batch\nput 50,\"Bergen, west\",true,00ff,9\nups 3,add,qty,7,set,city,a text that is longer than a value keeps\ndel 1\nend\n"
#define OTHERS "index new on city,qty include ok where qty >= 15\nbuild begun 2\ndrop large\nload\n.\ndrain by_city\nrebuild primary\nnothing\n"

static const request REQUEST[] = {
    {"a table", NO_TABLE, SCHEMA, "12222"},
    {"a load", NO_ROWS, LOAD, "1"},
    {"a load with a row that is none", NO_ROWS, "load\nid,city,ok,raw,qty\n1,Oslo,true,,10\n2,Oslo,true,,many\n.\n", "2"},
    {"a load with a key twice", NO_ROWS, "load\nid,city,ok,raw,qty\n1,Oslo,true,,10\n2,Oslo,true,,20\n1,Oslo,true,,30\n.\n", "2"},
    {"a batch", FILLED, BATCH, "1"},
    {"a batch with a row that is none", FILLED, "batch\nput 50,Oslo,true,00ff,9\nput 51,Oslo,true,0,9\nend\n", "2"},
    {"a get", FILLED, "get 3\n", "0"},
    {"a scan", FILLED, "scan by_city\nfrom \"Bergen, west\",3\nto Oslo\ngo\n", "0"},
    {"sums", FILLED, "sums by_city 2 qty\nfrom a\ngo\n", "0"},
    {"images", FILLED, IMAGES, "000"},
    {"other commands", FILLED, OTHERS, "1112112"},
    {"all of these", FILLED, TABLE LOAD BATCH "get 3\nsums by_city 2 qty\ngo\n" OTHERS, "221001112112"},
};

static const char INDEX[] = "index begun on ok\n";
static const char IMAGES_OF_ALL[] = "image primary\nimage by_city\nimage large\nimage begun\nimage new\n";

static long unchanged = 0, ended_as_ever = 0, unexplained = 0;

static int fail(const char *name, long number, const char *what) {
    printf("%s, request %ld: %s\n", name, number, what);
    return -1;
}

static betable_status check(betable_session *session, const char *script) { return betable_check(session, (const unsigned char *)script, strlen(script)); }

/* A session with the same table each time. */
static betable_session session_from(start from) {
    static message rows, replies;
    betable_session session = BETABLE_CLOSED;
    betable_fault fault;
    if (betable_open(&session) != BETABLE_DONE) {
        exit(4);
    }
    if (from != NO_TABLE) {
        run(&session, SCHEMA, &replies);
    }
    if (from == FILLED) {
        dice = 7;
        add_changes(&rows, ROWS);
        if (betable_apply(&session, rows.at, rows.length, &fault) != BETABLE_DONE) {
            exit(4);
        }
        run(&session, INDEX, &replies);
    }
    return session;
}

/* Whether the session keeps these kinds, and no replies. */
static int has_kinds(betable_session *session, const char *kinds) {
    unsigned char byte;
    size_t count = strlen(kinds);
    if (betable_reply_count(session) != count || betable_replies_length(session) != 0 || betable_copy_replies(session, 0, &byte, 1) != 0 ||
        betable_refused_count(session) != 0) {
        return 0;
    }
    betable_reply_place reply = {99, 98, 97};
    for (size_t place = 0; place < count; place++) {
        if (!betable_reply(session, place, &reply) || reply.offset != 0 || reply.length != 0 || reply.kind != (uint32_t)(kinds[place] - '0')) {
            return 0;
        }
    }
    reply.kind = 97;
    return !betable_reply(session, count, &reply) && reply.kind == 97;
}

static int has_images(betable_session *session, const message *images) {
    static message found;
    run(session, IMAGES_OF_ALL, &found);
    return is_same(&found, images);
}

/* One session with one allocation that is refused in the check. 0: that allocation was not reached. */
static int one_refusal(const request *one, long number, const message *before) {
    long in_use = blocks;
    betable_session session = session_from(one->from);
    /* What the check has to drop. */
    if (check(&session, "get x\nget x\n") != BETABLE_DONE || !has_kinds(&session, "22")) {
        return fail(one->name, number, "another check before it");
    }
    refuse(number);
    betable_status status = check(&session, one->script);
    int is_reached = end_refusals();
    if (status == BETABLE_OUT_OF_MEMORY && is_reached) {
        if (!has_kinds(&session, "")) {
            return fail(one->name, number, "a command without memory");
        }
        unchanged++;
    } else if (status == BETABLE_DONE) {
        if (!has_kinds(&session, one->kinds)) {
            return fail(one->name, number, "other kinds");
        }
        ended_as_ever += is_reached;
    } else {
        return fail(one->name, number, "another status");
    }
    if (betable_is_lost(&session) || !has_images(&session, before)) {
        return fail(one->name, number, "another table than before");
    }
    if (check(&session, one->script) != BETABLE_DONE || !has_kinds(&session, one->kinds) || !has_images(&session, before)) {
        return fail(one->name, number, "another end when it is made again");
    }
    if (betable_close(&session) != BETABLE_DONE || blocks != in_use) {
        return fail(one->name, number, "memory that is not freed");
    }
    return is_reached;
}

/* All refusals of a check. */
static int try_check(const request *one) {
    static message before;
    betable_session session = session_from(one->from);
    run(&session, IMAGES_OF_ALL, &before);
    betable_close(&session);
    long count = 0;
    for (is_one = 0; is_one < 2; is_one++) {
        int ended;
        for (long number = 0; (ended = one_refusal(one, number, &before)) == 1; number++) {
            count++;
        }
        if (ended != 0) {
            return ended;
        }
    }
    printf("%s: %ld\n", one->name, count);
    return count > 0 ? 0 : fail(one->name, 0, "no allocation");
}

/* Loses a table by a batch whose allocations are refused, and checks commands on it. */
static int try_lost_table(void) {
    long in_use = blocks;
    is_one = 0;
    for (long number = 0, is_reached = 1; is_reached; number++) {
        betable_session session = session_from(FILLED);
        refuse(number);
        betable_run(&session, (const unsigned char *)BATCH, strlen(BATCH));
        is_reached = end_refusals();
        int is_lost = betable_is_lost(&session);
        if (is_lost && (check(&session, TABLE BATCH OTHERS) != BETABLE_DONE || !has_kinds(&session, "222222222") || !betable_is_lost(&session))) {
            return fail("a lost table", number, "a command that would be carried out");
        }
        if (betable_close(&session) != BETABLE_DONE || blocks != in_use) {
            return fail("a lost table", number, "memory that is not freed");
        }
        if (is_lost) {
            return 0;
        }
    }
    return fail("a lost table", 0, "none was lost");
}

/* All refusals of an explanation: it keeps the table and the replies, and frees its memory. */
static int try_explain(const char *script) {
    static message images, found;
    betable_session session = session_from(FILLED);
    betable_reason reason;
    run(&session, IMAGES_OF_ALL, &images);
    long in_use = blocks;
    for (is_one = 0; is_one < 2; is_one++) {
        for (long number = 0, is_reached = 1; is_reached; number++) {
            refuse(number);
            betable_status status = betable_explain(&session, (const unsigned char *)script, strlen(script), &reason);
            is_reached = end_refusals();
            found.length = betable_copy_replies(&session, 0, found.at, sizeof found.at);
            if (status != BETABLE_REFUSED && !(is_reached && status == BETABLE_OUT_OF_MEMORY)) {
                return fail(script, number, "an explanation with another status");
            }
            if (blocks != in_use || !is_same(&found, &images)) {
                return fail(script, number, "memory that is not freed, or other replies");
            }
            unexplained += status == BETABLE_OUT_OF_MEMORY;
        }
    }
    int is_kept = has_images(&session, &images);
    betable_close(&session);
    return is_kept ? 0 : fail(script, 0, "another table than before");
}

int main(void) {
    betable_session closed = BETABLE_CLOSED;
    if (check(&closed, "get 1\n") != BETABLE_NOT_OPEN || !has_kinds(&closed, "")) {
        return 3;
    }
    for (size_t place = 0; place < sizeof REQUEST / sizeof *REQUEST; place++) {
        if (try_check(&REQUEST[place]) != 0) {
            return 1;
        }
    }
    if (try_lost_table() != 0 || try_explain("get \"x\"\n") != 0 || try_explain("batch\nput 1,\"a, b\",true,0,9\nend\n") != 0 ||
        try_explain("load\nid,city,ok,raw,qty\n1,\"a, b\",true,,x\n.\n") != 0 || try_explain("scan by_city\nfrom \"a, b\",x\ngo\n") != 0) {
        return 1;
    }
    printf("%ld checks without memory, %ld that ended as ever, and %ld explanations without memory\n", unchanged, ended_as_ever, unexplained);
    return unchanged > 0 && unexplained > 0 ? 0 : 5;
}
