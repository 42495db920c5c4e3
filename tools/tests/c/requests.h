/* Random and mutated requests of each call on packed bytes, on the table of packed.h. */
#ifndef REQUESTS_H
#define REQUESTS_H

#include "packed.h"

enum { APPLY, GET, PAGE, LAST_PAGE, SUMS, COLUMNS, USAGE, ALL_TREES, CALLS };

/* None, before the rows that begin with some values, or directly after the row with a key. */
static void add_bound(message *to, const tree *of) {
    size_t code = below(3), count = code == 1 ? 1 + below(of->keys) : code == 2 ? of->keys : 0;
    add_byte(to, code);
    if (code == 1) {
        add_byte(to, count);
    }
    for (size_t place = 0; place < count; place++) {
        if (of == TREE) {
            add_key(to);
        } else {
            add_value(to, of->kinds[place]);
        }
    }
}

static void add_tree(message *to, const tree *of) { add_text(to, below(20) == 0 ? "nothing" : of->name); }

static void write_request(message *to, size_t call) {
    static const uint32_t LIMIT[] = {0, 1, 2, 5, UINT32_MAX};
    static const char *const COLUMN[] = {"qty", "qty", "qty", "id", "id", "city", "nothing", ""};
    const tree *of = &TREE[below(TREES)];
    switch (call) {
    case APPLY:
        add_changes(to, (uint32_t)below(5));
        break;
    case GET:
        begin(to, 1);
        add_key(to);
        break;
    case PAGE:
    case LAST_PAGE:
        begin(to, LIMIT[below(sizeof LIMIT / sizeof *LIMIT)]);
        add_tree(to, of);
        add_bound(to, of);
        add_bound(to, of);
        break;
    case SUMS:
        begin(to, (uint32_t)(below(6) == 0 ? below(4) : 1 + below(of->keys)));
        add_tree(to, of);
        add_text(to, COLUMN[below(sizeof COLUMN / sizeof *COLUMN)]);
        add_bound(to, of);
        add_bound(to, of);
        break;
    case ALL_TREES:
        begin(to, (uint32_t)below(2));
        break;
    default:
        begin(to, 1);
        add_tree(to, of);
    }
}

/* Puts bytes in the place of some of a message. */
static void replace(message *of, size_t at, size_t removed, const unsigned char *bytes, size_t length) {
    removed = removed < of->length - at ? removed : of->length - at;
    if (of->length + length > sizeof of->at) {
        return;
    }
    memmove(of->at + at + length, of->at + at + removed, of->length - at - removed);
    memcpy(of->at + at, bytes, length);
    of->length += length - removed;
}

static void mutate(message *of) {
    unsigned char bytes[32];
    size_t at = below(of->length + 1), length = 1 + below(8);
    for (size_t place = 0; place < length; place++) {
        bytes[place] = (unsigned char)(below(2) == 0 ? below(6) : below(256));
    }
    switch (below(6)) {
    case 0:
        replace(of, at, length, bytes, 0);
        break;
    case 1:
        replace(of, at, 0, bytes, length);
        break;
    case 2:
        of->length = at;
        break;
    case 3: {
        size_t copied = below(sizeof bytes);
        copied = copied < of->length - at ? copied : of->length - at;
        memcpy(bytes, of->at + at, copied);
        replace(of, at, 0, bytes, copied);
        break;
    }
    case 4:
        if (at < of->length) {
            of->at[at] ^= (unsigned char)(1 << below(8));
        }
        break;
    default:
        replace(of, at, 1, bytes, 1);
    }
}

static void write_message(message *to, size_t call) {
    if (below(20) == 0) {
        for (to->length = 0; to->length < below(60);) {
            add_byte(to, below(256));
        }
        return;
    }
    write_request(to, call);
    for (size_t count = below(4); count > 0; count--) {
        mutate(to);
    }
}

#endif
