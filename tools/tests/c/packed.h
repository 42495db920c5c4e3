/* What the tests of packed calls in C share: a table with two indexes, the encoding of packed bytes, random changes, and the state of the table. */
#ifndef PACKED_H
#define PACKED_H

#include "betable.h"

#include <stdint.h>
#include <stdio.h>
#include <stdlib.h>
#include <string.h>

static const char SCHEMA[] =
    "table 4 3 2 1 id:int city:text ok:flag raw:bytes qty:int\n"
    "index by_city on city include ok,qty\nbuild by_city 1\n"
    "index large on qty where qty >= 6\nbuild large 1\n";
static const char IMAGES[] = "image primary\nimage by_city\nimage large\n";

/* The kinds of the columns of each tree, as letters: int, text, flag, bytes. The key of the rows is the first one, that of an index the first two. */
typedef struct {
    const char *name, *kinds;
    size_t keys;
} tree;

enum { TREES = 3, PUT = 0, DEL = 1, UPSERT = 2 };
static const tree TREE[TREES] = {{"primary", "itfbi", 1}, {"by_city", "tifi", 2}, {"large", "ii", 2}};

typedef betable_status packed_call(betable_session *session, const unsigned char *given, size_t length, betable_fault *fault);

/* ---- random numbers ---- */

static uint64_t dice = 88172645463325252;

static uint64_t below(uint64_t limit) {
    dice ^= dice << 13, dice ^= dice >> 7, dice ^= dice << 17;
    return (dice >> 11) % limit;
}

/* ---- the layout, as include/betable.h has it ---- */

typedef struct {
    unsigned char at[1 << 17];
    size_t length;
} message;

static void add_byte(message *to, uint64_t byte) { to->at[to->length++] = (unsigned char)byte; }

static void add_number(message *to, uint64_t number, int size) {
    for (int place = 0; place < size; place++) {
        add_byte(to, number >> 8 * place & 255);
    }
}

static void add_bytes(message *to, const char *bytes, size_t length) {
    add_byte(to, length);
    memcpy(to->at + to->length, bytes, length);
    to->length += length;
}

static inline void add_text(message *to, const char *text) { add_bytes(to, text, strlen(text)); }

static void begin(message *to, uint32_t number) {
    memcpy(to->at, "BTV\1", 4);
    to->length = 4;
    add_number(to, number, 4);
}

/* ---- random changes ---- */

static const struct {
    const char *bytes;
    size_t length;
} TEXT[] = {{"", 0}, {"a", 1}, {"a\0", 2}, {"ab", 2}, {"Oslo", 4}, {"Bergen, west", 12}, {"\"", 1}, {"\xc3\xa6", 2}, {"\xef\xbb\xbfx", 4}};
static const int64_t INT[] = {0, 1, -1, 2, 7, INT64_MAX, INT64_MIN};

static void add_value(message *to, char kind) {
    static char longest[255];
    switch (kind) {
    case 'i':
        add_number(to, (uint64_t)INT[below(sizeof INT / sizeof *INT)], 8);
        break;
    case 'f':
        add_byte(to, below(2));
        break;
    case 't':
        if (below(10) == 0) {
            memset(longest, 'x', sizeof longest);
            add_bytes(to, longest, sizeof longest);
        } else {
            size_t place = below(sizeof TEXT / sizeof *TEXT);
            add_bytes(to, TEXT[place].bytes, TEXT[place].length);
        }
        break;
    default: {
        size_t length = below(10) == 0 ? 255 : below(6);
        add_byte(to, length);
        while (length-- > 0) {
            add_byte(to, below(8) * 85);
        }
    }
    }
}

static void add_key(message *to) { add_number(to, below(40) - 5, 8); }

static void add_put(message *to) {
    add_byte(to, PUT);
    add_key(to);
    for (const char *kind = TREE[0].kinds + 1; *kind != 0; kind++) {
        add_value(to, *kind);
    }
}

static void add_upsert(message *to) {
    add_byte(to, UPSERT);
    add_key(to);
    size_t count = 1 + below(4);
    add_byte(to, count);
    while (count-- > 0) {
        size_t code = below(4), place = code == 0 ? 1 + below(4) : 4;
        add_byte(to, code);
        add_byte(to, place);
        add_value(to, TREE[0].kinds[place]);
    }
}

static void add_change(message *to) {
    switch (below(5)) {
    case 0:
        add_byte(to, DEL);
        add_key(to);
        break;
    case 1:
    case 2:
        add_upsert(to);
        break;
    default:
        add_put(to);
    }
}

static void add_changes(message *to, uint32_t count) {
    begin(to, count);
    while (count-- > 0) {
        add_change(to);
    }
}

/* ---- the state of a table ---- */

/* Runs a script, and copies its replies. */
static inline void run(betable_session *session, const char *script, message *found) {
    if (betable_run(session, (const unsigned char *)script, strlen(script)) != BETABLE_DONE) {
        exit(4);
    }
    found->length = betable_copy_replies(session, 0, found->at, sizeof found->at);
    if (found->length != betable_replies_length(session)) {
        exit(5);
    }
}

static inline int is_same(const message *one, const message *other) { return one->length == other->length && memcmp(one->at, other->at, one->length) == 0; }

#endif
