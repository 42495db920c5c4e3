/* Refuses each allocation of a call on packed bytes, one per session, alone and with all that follow it, and checks the reply and the state of the table.
 *
 * Linked with -Wl,--wrap=malloc,--wrap=realloc,--wrap=free. A call ends as it does with enough memory, or with OUT_OF_MEMORY and no reply. Then the table is as
 * it was, and the call, made again with enough memory, ends as it should; or the table is lost, which only a call that applies changes may do. After the
 * session is closed, all memory is freed. Prints the number of refused allocations of each call, and how the calls ended. */
#include "packed.h"
#include "refusals.h"

enum { ROWS = 60, FAILED = 18 };

typedef struct {
    const char *name;
    packed_call *call;
    void (*write)(message *to);
    betable_status status;
} request;

static void write_put(message *to) {
    begin(to, 1);
    add_put(to);
}

static void write_changes(message *to) { add_changes(to, 50); }

static void write_wrong_changes(message *to) {
    add_changes(to, 20);
    to->at[4]++;
    add_byte(to, 3);
}

static void write_key(message *to) {
    begin(to, 1);
    add_number(to, 3, 8);
}

static void write_page(message *to, uint32_t limit, const char *name) {
    begin(to, limit);
    add_text(to, name);
    add_number(to, 0, 2);
}

static void write_all(message *to) { write_page(to, UINT32_MAX, "primary"); }

static void write_entries(message *to) { write_page(to, 30, "by_city"); }

static void write_sums_of(message *to, uint32_t columns, const char *column) {
    begin(to, columns);
    add_text(to, "by_city");
    add_text(to, column);
    add_number(to, 0, 2);
}

static void write_sums(message *to) { write_sums_of(to, 1, "qty"); }

static void write_many_sums(message *to) { write_sums_of(to, 2, "id"); }

static void write_wrong_sums(message *to) { write_sums_of(to, 1, "city"); }

static void write_count(message *to) { write_sums_of(to, 0, ""); }

static void write_trees(message *to) { begin(to, 1); }

static void write_wrong_page(message *to) { write_page(to, 30, "nothing"); }

static void write_name(message *to) {
    begin(to, 1);
    add_text(to, "by_city");
}

static const request REQUEST[] = {
    {"a put", betable_apply, write_put, BETABLE_DONE},
    {"50 changes", betable_apply, write_changes, BETABLE_DONE},
    {"20 changes and one that is none", betable_apply, write_wrong_changes, BETABLE_REFUSED},
    {"a get", betable_get, write_key, BETABLE_DONE},
    {"a page of all rows", betable_page, write_all, BETABLE_DONE},
    {"a page of an index", betable_page, write_entries, BETABLE_DONE},
    {"a last page of all rows", betable_last_page, write_all, BETABLE_DONE},
    {"a last page of an index", betable_last_page, write_entries, BETABLE_DONE},
    {"a page of no tree", betable_page, write_wrong_page, BETABLE_REFUSED},
    {"sums of cities", betable_sums, write_sums, BETABLE_DONE},
    {"sums of entries", betable_sums, write_many_sums, BETABLE_DONE},
    {"sums of texts", betable_sums, write_wrong_sums, BETABLE_REFUSED},
    {"columns", betable_columns, write_name, BETABLE_DONE},
    {"usage", betable_usage, write_name, BETABLE_DONE},
    {"a count", betable_sums, write_count, BETABLE_DONE},
    {"trees", betable_trees, write_trees, BETABLE_DONE},
};

/* What a call gives, and the images after it. */
typedef struct {
    betable_status status;
    betable_fault fault;
    message reply, images;
} outcome;

static long lost = 0, unchanged = 0, ended_as_ever = 0;

static int fail(const request *one, long number, const char *what) {
    printf("%s, request %ld: %s\n", one->name, number, what);
    return -1;
}

/* A session with rows in the table and its indexes, the same ones each time. */
static betable_session filled(void) {
    static message rows, replies;
    betable_session session = BETABLE_CLOSED;
    betable_fault fault;
    if (betable_open(&session) != BETABLE_DONE) {
        exit(4);
    }
    run(&session, SCHEMA, &replies);
    dice = 7;
    add_changes(&rows, ROWS);
    if (betable_apply(&session, rows.at, rows.length, &fault) != BETABLE_DONE) {
        exit(4);
    }
    return session;
}

static void make(betable_session *session, const request *one, const message *given, outcome *found) {
    found->fault = (betable_fault){99, 98, 97};
    found->status = one->call(session, given->at, given->length, &found->fault);
    found->reply.length = betable_copy_replies(session, 0, found->reply.at, sizeof found->reply.at);
}

static int is_fault(betable_fault one, betable_fault other) { return one.refusal == other.refusal && one.item == other.item && one.column == other.column; }

static int is_as_wanted(const outcome *found, const outcome *wanted) {
    return found->status == wanted->status && is_fault(found->fault, wanted->fault) && is_same(&found->reply, &wanted->reply);
}

/* Whether the session has these images. */
static int has_images(betable_session *session, const message *images) {
    static message found;
    run(session, IMAGES, &found);
    return is_same(&found, images);
}

/* The status with which a get of the table is refused. */
static uint64_t refusal_of_get(betable_session *session) {
    static message key;
    static outcome found;
    static const request get = {"a get", betable_get, write_key, BETABLE_DONE};
    write_key(&key);
    make(session, &get, &key, &found);
    return found.status == BETABLE_REFUSED ? found.fault.refusal : 0;
}

/* One session with one allocation that is refused in the call. 0: that allocation was not reached. */
static int one_refusal(const request *one, const message *given, long number, const message *before, const outcome *wanted) {
    static outcome found;
    long in_use = blocks;
    betable_session session = filled();
    refuse(number);
    make(&session, one, given, &found);
    int is_reached = end_refusals();
    if (found.status == BETABLE_OUT_OF_MEMORY) {
        if (found.reply.length != 0 || found.fault.refusal != 99) {
            return fail(one, number, "a reply or a fault");
        }
        if (betable_is_lost(&session)) {
            if (one->call != betable_apply || refusal_of_get(&session) != FAILED) {
                return fail(one, number, "a table that is lost");
            }
            lost++;
        } else {
            if (!has_images(&session, before)) {
                return fail(one, number, "other images than before");
            }
            make(&session, one, given, &found);
            if (!is_as_wanted(&found, wanted) || !has_images(&session, &wanted->images)) {
                return fail(one, number, "another end when it is made again");
            }
            unchanged++;
        }
    } else {
        if (!is_as_wanted(&found, wanted) || !has_images(&session, &wanted->images)) {
            return fail(one, number, "another end");
        }
        ended_as_ever += is_reached;
    }
    if (betable_close(&session) != BETABLE_DONE || blocks != in_use) {
        return fail(one, number, "memory that is not freed");
    }
    return is_reached;
}

/* All refusals of a call. */
static int try_call(const request *one) {
    static outcome wanted;
    static message given, before;
    betable_session session = filled();
    run(&session, IMAGES, &before);
    dice = 11;
    one->write(&given);
    make(&session, one, &given, &wanted);
    run(&session, IMAGES, &wanted.images);
    betable_close(&session);
    if (wanted.status != one->status || (wanted.status == BETABLE_REFUSED || one->call != betable_apply) != is_same(&before, &wanted.images)) {
        return fail(one, 0, "another end with enough memory");
    }
    long count = 0;
    for (is_one = 0; is_one < 2; is_one++) {
        int ended;
        for (long number = 0; (ended = one_refusal(one, &given, number, &before, &wanted)) == 1; number++) {
            count++;
        }
        if (ended != 0) {
            return ended;
        }
    }
    printf("%s: %ld\n", one->name, count);
    return 0;
}

int main(void) {
    for (size_t place = 0; place < sizeof REQUEST / sizeof *REQUEST; place++) {
        if (try_call(&REQUEST[place]) != 0) {
            return 1;
        }
    }
    printf("%ld tables lost, %ld calls that changed nothing, %ld that ended as ever\n", lost, unchanged, ended_as_ever);
    return lost > 0 && unchanged > 0 ? 0 : 5;
}
