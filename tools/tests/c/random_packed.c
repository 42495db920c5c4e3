/* Calls on random and mutated packed bytes.
 *
 *     random_packed SEED COUNT
 *
 * Each message is directly before or directly after a page that cannot be accessed, so that a call that reads bytes outside of it ends the program. A call ends
 * with DONE or REFUSED. If it was refused it has a fault and no reply, and the images of all trees are as they were; so are they after a call that only reads,
 * whose reply has the layout of its rows. Prints how many calls were done and refused, of changes and of each kind of reading. */
#define _GNU_SOURCE
#include "requests.h"

#include <sys/mman.h>
#include <unistd.h>

enum { UNWRITTEN = 99, MOST_ROWS = 40, ROOM = sizeof(((message *)0)->at) };
/* Syntax, BadField, BadLength, NoSuchTree, NoSuchColumn and NotInt: what these calls are refused as, while there is a table and its indexes are complete. */
static const uint32_t REFUSALS = 1 << 1 | 1 << 6 | 1 << 7 | 1 << 8 | 1 << 15 | 1 << 16;

static packed_call *const CALL[CALLS] = {
    betable_apply, betable_get, betable_page, betable_last_page, betable_sums, betable_columns, betable_usage, betable_trees,
};
static const char *const NAME[CALLS] = {"changes", "gets", "pages", "last pages", "sums", "columns", "usage", "trees"};
static betable_session session = BETABLE_CLOSED;
static unsigned char *room;
static size_t page_size;
static message given, reply;

static void fail(const char *what) {
    printf("%s, after", what);
    for (size_t at = 0; at < given.length; at++) {
        printf(" %02x", given.at[at]);
    }
    printf("\n");
    exit(1);
}

/* The bytes of the message, directly before or directly after a page that cannot be accessed. */
static const unsigned char *placed(void) {
    unsigned char *at = below(2) == 0 ? room + page_size : room + page_size + ROOM - given.length;
    memcpy(at, given.at, given.length);
    return at;
}

/* ---- replies ---- */

/* The number of bytes of a value here, or more than are left. */
static size_t size_of_value(char kind, const unsigned char *at, size_t left) {
    size_t size = kind == 'i' ? 8 : kind == 'f' || left == 0 ? 1 : 1 + (size_t)*at;
    return kind == 'f' && left > 0 && *at > 1 ? left + 1 : size;
}

/* The place after the first values of a row of the reply, which begins at a place. */
static size_t end_of_values(size_t at, const char *kinds, size_t count) {
    for (size_t place = 0; place < count; place++) {
        size_t size = size_of_value(kinds[place], reply.at + at, reply.length - at);
        if (size > reply.length - at) {
            fail("a reply that ends within a value");
        }
        at += size;
    }
    return at;
}

/* The number of rows of the reply. */
static size_t row_count(const char *kinds) {
    size_t count = 0;
    for (size_t at = 4; at < reply.length; count++) {
        at = end_of_values(at, kinds, strlen(kinds));
    }
    return count;
}

/* The tree that the message names. */
static const tree *named(void) {
    for (size_t place = 0; place < TREES; place++) {
        size_t length = strlen(TREE[place].name);
        if (given.length > 8 + length && given.at[8] == length && memcmp(given.at + 9, TREE[place].name, length) == 0) {
            return &TREE[place];
        }
    }
    fail("no tree");
    return NULL;
}

static size_t number(const unsigned char *at, size_t size) {
    size_t found = 0;
    while (size-- > 0) {
        found = found << 8 | at[size];
    }
    return found;
}

/* Checks a number of the reply, of eight bytes, and returns the place after it. */
static size_t end_of_number(size_t at, size_t wanted) {
    if (at + 8 > reply.length || number(reply.at + at, 8) != wanted) {
        fail("another number");
    }
    return at + 8;
}

/* Checks the columns that begin at a place of the reply, and returns the place after them. */
static size_t end_of_columns(size_t at, const tree *of) {
    static const char KIND[] = "itf b";
    for (const char *kind = of->kinds; *kind != 0; kind++) {
        if (at + 2 > reply.length || reply.at[at] > 4 || KIND[reply.at[at]] != *kind) {
            fail("another kind of a column");
        }
        at += 2 + (size_t)reply.at[at + 1];
    }
    return at;
}

/* The columns of the reply, which has the number of key columns first. */
static void check_columns(const tree *of) {
    if (end_of_columns(end_of_number(4, of->keys), of) != reply.length) {
        fail("other columns");
    }
}

/* The trees of the reply, all of them complete, with how much each holds if the message has the number 1. */
static void check_trees(int has_usage) {
    size_t at = 4;
    for (size_t place = 0; place < TREES; place++) {
        const tree *of = &TREE[place];
        size_t length = strlen(of->name);
        if (reply.length < at + length + 2 || reply.at[at] != length || memcmp(reply.at + at + 1, of->name, length) != 0 || reply.at[at + length + 1] != 0) {
            fail("another tree");
        }
        at = end_of_columns(end_of_number(end_of_number(at + length + 2, of->keys), strlen(of->kinds)), of);
        at += has_usage ? 24 : 0;
        if (at > reply.length || (has_usage && number(reply.at + at - 8, 8) < 1)) {
            fail("no height");
        }
    }
    if (at != reply.length) {
        fail("more trees");
    }
}

/* The groups of the reply, each with a number of rows, and a sum of so many ints. Without columns there is one, which may have no rows. */
static void check_sums(const tree *of, size_t columns) {
    if (columns > of->keys) {
        fail("another number of columns of a group");
    }
    if (columns == 0 && reply.length != 28) {
        fail("another number of groups");
    }
    for (size_t at = 4; at < reply.length; at += 24) {
        at = end_of_values(at, of->kinds, columns);
        if (reply.length - at < 24) {
            fail("a group that is cut");
        }
        size_t count = number(reply.at + at, 8);
        int64_t high;
        memcpy(&high, reply.at + at + 16, sizeof high);
        if (count < (columns == 0 ? 0 : 1) || count > 4 * MOST_ROWS || high < -(int64_t)count || (high >= (int64_t)count && high != 0)) {
            fail("a number of rows, or a sum, that cannot be");
        }
    }
}

static void check_reply(size_t call) {
    if (call == APPLY) {
        if (reply.length != 0) {
            fail("a reply to changes");
        }
        return;
    }
    if (reply.length < 4 || memcmp(reply.at, "BTV\1", 4) != 0) {
        fail("a reply without its header");
    }
    if (call == GET) {
        if (row_count(TREE[0].kinds) > 1 || (reply.length > 4 && memcmp(reply.at + 4, given.at + 8, 8) != 0)) {
            fail("another row than that of the key");
        }
    } else if (call == PAGE || call == LAST_PAGE) {
        if (row_count(named()->kinds) > number(given.at + 4, 4)) {
            fail("more rows than the limit");
        }
    } else if (call == SUMS) {
        check_sums(named(), number(given.at + 4, 4));
    } else if (call == COLUMNS) {
        check_columns(named());
    } else if (call == ALL_TREES) {
        check_trees(given.at[4]);
    } else if (reply.length != 28 || number(reply.at + 20, 8) < 1) {
        fail("another length, or no height");
    }
}

/* ---- calls ---- */

/* Whether a call on the message was done. */
static int is_done(size_t call) {
    betable_fault fault = {UNWRITTEN, UNWRITTEN, UNWRITTEN};
    betable_status status = CALL[call](&session, placed(), given.length, &fault);
    reply.length = betable_replies_length(&session);
    if (reply.length > sizeof reply.at || betable_copy_replies(&session, 0, reply.at, sizeof reply.at) != reply.length) {
        fail("a reply that cannot be copied");
    }
    if (status == BETABLE_DONE) {
        if (fault.refusal != UNWRITTEN || fault.item != UNWRITTEN || fault.column != UNWRITTEN) {
            fail("a fault of a call that is done");
        }
        check_reply(call);
        return 1;
    }
    if (status != BETABLE_REFUSED || fault.refusal > 31 || !(REFUSALS >> fault.refusal & 1) || reply.length != 0) {
        fail("another status, or a reply of a call that is refused");
    }
    return 0;
}

/* Deletes half of the rows if there are many. */
static void thin_out(void) {
    static const unsigned char all[] = "BTV\1\xff\xff\xff\xff\7primary\0";
    betable_fault fault;
    if (betable_page(&session, all, sizeof all, &fault) != BETABLE_DONE) {
        fail("no page of all rows");
    }
    reply.length = betable_copy_replies(&session, 0, reply.at, sizeof reply.at);
    size_t count = row_count(TREE[0].kinds);
    if (count <= MOST_ROWS) {
        return;
    }
    begin(&given, (uint32_t)count / 2);
    for (size_t row = 0, at = 4; row < count / 2; row++) {
        add_byte(&given, DEL);
        memcpy(given.at + given.length, reply.at + at, 8);
        given.length += 8;
        at = end_of_values(at, TREE[0].kinds, strlen(TREE[0].kinds));
    }
    if (!is_done(APPLY)) {
        fail("rows that cannot be deleted");
    }
}

int main(int word_count, char **words) {
    if (word_count != 3) {
        return 3;
    }
    long count = strtol(words[2], NULL, 10), done[CALLS] = {0}, refused[CALLS] = {0};
    dice += strtoull(words[1], NULL, 10);
    page_size = (size_t)sysconf(_SC_PAGESIZE);
    room = mmap(NULL, ROOM + 2 * page_size, PROT_NONE, MAP_PRIVATE | MAP_ANONYMOUS, -1, 0);
    if (room == MAP_FAILED || mprotect(room + page_size, ROOM, PROT_READ | PROT_WRITE) != 0 || betable_open(&session) != BETABLE_DONE) {
        return 4;
    }
    static message images, now;
    run(&session, SCHEMA, &now);
    run(&session, IMAGES, &images);
    while (count-- > 0) {
        size_t call = below(10) < 6 ? APPLY : GET + below(CALLS - 1);
        write_message(&given, call);
        int was_done = is_done(call);
        ++*(was_done ? &done[call] : &refused[call]);
        run(&session, IMAGES, &now);
        if ((call != APPLY || !was_done) && !is_same(&now, &images)) {
            fail("other images");
        }
        if (call == APPLY && was_done) {
            thin_out();
            run(&session, IMAGES, &images);
        }
    }
    for (size_t call = 0; call < CALLS; call++) {
        printf("%s%s: %ld done, %ld refused", call == 0 ? "" : "; ", NAME[call], done[call], refused[call]);
    }
    printf("\n");
    return betable_close(&session) == BETABLE_DONE && munmap(room, ROOM + 2 * page_size) == 0 ? 0 : 4;
}
