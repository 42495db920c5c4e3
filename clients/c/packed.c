/* The calls on packed bytes from C: puts three rows and changes one, gets a row, reads the table in pages of two rows and its last two rows, sums the quantities
 * of each city, counts the rows, and shows a refusal. No text is written or read in between. Build it as example.c. */
#include "betable.h"

#include <inttypes.h>
#include <stdio.h>
#include <string.h>

/* The bytes of a call, in the order in which they are added. */
typedef struct {
    unsigned char bytes[256];
    size_t length;
} packed;

static void add_byte(packed *to, int byte) { to->bytes[to->length++] = (unsigned char)byte; }

static void add_number(packed *to, uint64_t number, int size) {
    for (int place = 0; place < size; place++)
        add_byte(to, (int)(number >> 8 * place & 255));
}

static void add_text(packed *to, const char *text) {
    add_byte(to, (int)strlen(text));
    for (; *text != 0; text++)
        add_byte(to, *text);
}

static packed begun(uint32_t number) {
    packed to = {{'B', 'T', 'V', 1}, 4};
    add_number(&to, number, 4);
    return to;
}

/* Of the table id:int city:text qty:int. */
static void add_put(packed *to, int64_t id, const char *city, int64_t qty) {
    add_byte(to, 0);
    add_number(to, (uint64_t)id, 8);
    add_text(to, city);
    add_number(to, (uint64_t)qty, 8);
}

static int64_t number_at(const unsigned char *bytes) {
    uint64_t number = 0;
    for (int place = 8; place-- > 0;)
        number = number << 8 | bytes[place];
    return (int64_t)number;
}

/* Prints the rows of the reply, and returns the key of the last one and the number of rows. */
static int64_t print_rows(betable_session *session, int *count) {
    unsigned char reply[4096];
    size_t length = betable_copy_replies(session, 0, reply, sizeof reply), at = 4;
    int64_t id = 0;
    for (*count = 0; at < length; ++*count) {
        id = number_at(reply + at);
        int size = reply[at + 8];
        printf("%" PRId64 " %.*s %" PRId64 "\n", id, size, (const char *)reply + at + 9, number_at(reply + at + 9 + size));
        at += (size_t)size + 17;
    }
    return id;
}

/* Prints the groups of the reply. A sum has sixteen bytes: the first eight are enough for these. */
static void print_sums(betable_session *session) {
    unsigned char reply[4096];
    size_t length = betable_copy_replies(session, 0, reply, sizeof reply);
    for (size_t at = 4; at < length;) {
        int size = reply[at];
        const unsigned char *numbers = reply + at + 1 + size;
        printf("%.*s: rows %" PRId64 ", sum %" PRId64 "\n", size, (const char *)reply + at + 1, number_at(numbers), number_at(numbers + 8));
        at += (size_t)size + 25;
    }
}

int main(void) {
    static const unsigned char script[] =
        "table 16 1024 256 1 id:int city:text qty:int\n"
        "index by_city on city include qty\nbuild by_city 1\n";
    betable_session session = BETABLE_CLOSED;
    betable_fault fault;
    int count;
    if (betable_open(&session) != BETABLE_DONE || betable_run(&session, script, sizeof script - 1) != BETABLE_DONE)
        return 1;

    packed changes = begun(4);
    add_put(&changes, 1, "Oslo", 30);
    add_put(&changes, 2, "Bergen, west", 10);
    add_put(&changes, 3, "Oslo", 7);
    add_byte(&changes, 2); /* an upsert of the row of 2: */
    add_number(&changes, 2, 8);
    add_byte(&changes, 1); /* one operation, */
    add_byte(&changes, 1); /* add, */
    add_byte(&changes, 2); /* to column 2, the third one, */
    add_number(&changes, 5, 8);
    if (betable_apply(&session, changes.bytes, changes.length, &fault) != BETABLE_DONE)
        return 1;

    packed key = begun(1);
    add_number(&key, 2, 8);
    if (betable_get(&session, key.bytes, key.length, &fault) != BETABLE_DONE)
        return 1;
    printf("get: ");
    print_rows(&session, &count);

    int64_t last = 0;
    for (int is_first = 1, is_more = 1; is_more; is_first = 0, is_more = count == 2) {
        packed page = begun(2); /* at most two rows */
        add_text(&page, "primary");
        add_byte(&page, is_first ? 0 : 2); /* from the first row on, or from directly after the last one */
        if (!is_first)
            add_number(&page, (uint64_t)last, 8);
        add_byte(&page, 0);
        if (betable_page(&session, page.bytes, page.length, &fault) != BETABLE_DONE)
            return 1;
        puts("page:");
        last = print_rows(&session, &count);
    }

    packed newest = begun(2); /* the last two rows, from the last one back */
    add_text(&newest, "primary");
    add_number(&newest, 0, 2); /* without bounds */
    if (betable_last_page(&session, newest.bytes, newest.length, &fault) != BETABLE_DONE)
        return 1;
    puts("last page:");
    print_rows(&session, &count);

    packed sums = begun(1); /* groups by one column */
    add_text(&sums, "by_city");
    add_text(&sums, "qty");
    add_number(&sums, 0, 2); /* without bounds */
    if (betable_sums(&session, sums.bytes, sums.length, &fault) != BETABLE_DONE)
        return 1;
    puts("sums:");
    print_sums(&session);

    unsigned char reply[28];
    packed rows = begun(0); /* by no column: one group of all rows */
    add_text(&rows, "primary");
    add_text(&rows, ""); /* no column is summed */
    add_number(&rows, 0, 2);
    if (betable_sums(&session, rows.bytes, rows.length, &fault) != BETABLE_DONE || betable_copy_replies(&session, 0, reply, sizeof reply) != sizeof reply)
        return 1;
    printf("rows: %" PRId64 "\n", number_at(reply + 4));

    packed wrong = begun(2);
    add_put(&wrong, 4, "Bodø", 1);
    add_put(&wrong, 5, "\xff", 1); /* no UTF-8: neither row is put */
    if (betable_apply(&session, wrong.bytes, wrong.length, &fault) == BETABLE_REFUSED)
        printf("refused %" PRIu64 ", item %" PRIu64 ", column %" PRIu64 "\n", fault.refusal, fault.item, fault.column);
    return betable_close(&session) == BETABLE_DONE ? 0 : 1;
}
