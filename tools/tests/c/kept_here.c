/* Carries out the requests of its input on a table in a file of this process, as `betable_engine --keep PATH` does in another one: by the calls of betable_file.h,
 * or by those of betable_engine.h, for scripts alone.
 *
 *     kept_here frames | calls --keep PATH
 */
#include "betable_engine.h"
#include "betable_file.h"

#include <errno.h>
#include <stdio.h>
#include <stdlib.h>
#include <string.h>
#include <unistd.h>

enum { HEADER = 13, PIECE = 65536, SCRIPT = 1, ONCE = 12 };

static betable_file file = BETABLE_FILE_CLOSED;
static betable_engine engine = BETABLE_ENGINE_CLOSED;

static _Noreturn void end(int status, const char *reason) {
    fprintf(stderr, "betable: %s\n", reason);
    betable_file_close(&file);
    betable_engine_close(&engine);
    exit(status);
}

/* What betable_engine says of such a result. */
static const char *reason_of(int result, bool is_open) {
    switch (result) {
    case BETABLE_OUT_OF_MEMORY:
        return "out of memory";
    case BETABLE_NOT_A_TABLE:
        return "the file is no table";
    case BETABLE_OTHER_FORMAT:
        return "the file has another format";
    case BETABLE_OTHER_ENGINE:
        return "another engine wrote the file";
    case BETABLE_DAMAGED:
        return "the file is damaged";
    case BETABLE_FILE_IN_USE:
        return "the file is in use";
    case BETABLE_FILE_FAILED:
        return is_open ? "the disk failed" : "the file cannot be opened";
    default:
        return "another result";
    }
}

static void check(int result, bool is_open) {
    if (result != BETABLE_DONE && result != BETABLE_REFUSED && result != BETABLE_ENGINE_INVALID)
        end(is_open ? 1 : 2, reason_of(result, is_open));
}

static void print(const void *bytes, size_t length) {
    const unsigned char *at = bytes;
    while (length > 0) {
        ssize_t count = write(STDOUT_FILENO, at, length);
        if (count < 0)
            end(1, "write failed");
        at += count;
        length -= (size_t)count;
    }
}

static size_t number_at(const unsigned char *bytes) {
    size_t number = 0;
    for (int place = 8; place-- > 0;)
        number = number << 8 | bytes[place];
    return number;
}

static void print_number(uint64_t number) {
    unsigned char bytes[8];
    for (int place = 0; place < 8; place++)
        bytes[place] = (unsigned char)(number >> 8 * place);
    print(bytes, sizeof bytes);
}

/* ---- by frames ---- */

static void run_frames(const unsigned char *requests, size_t length) {
    static unsigned char piece[PIECE];
    size_t from = 0, count;
    check(betable_file_run(&file, requests, length), true);
    for (; (count = betable_file_copy_replies(&file, from, piece, sizeof piece)) > 0; from += count)
        print(piece, count);
    if (from != betable_file_replies_length(&file))
        end(3, "another length");
}

/* ---- by calls ---- */

static void print_reply(int result) {
    size_t length;
    const unsigned char *replies = betable_engine_replies(&engine, &length);
    size_t count = result == BETABLE_DONE ? betable_engine_reply_count(&engine) : 0;
    unsigned char kind = result == BETABLE_DONE ? 0 : 2;
    print("BTF\1", 4);
    print_number(length + (kind == 0 ? 9 * count + 8 : 0));
    print(&kind, 1);
    print(replies, length);
    betable_reply_place place;
    for (size_t number = 0; number < count && betable_engine_reply(&engine, number, &place); number++) {
        unsigned char what = (unsigned char)place.kind;
        print_number(place.offset + place.length);
        print(&what, 1);
    }
    if (kind == 0)
        print_number(length);
}

static void receive(size_t *sent) {
    for (betable_fault fault; *sent > 0; --*sent) {
        int result = betable_engine_receive(&engine, &fault);
        check(result, true);
        print_reply(result);
    }
}

/* Scripts are sent ahead, and a request with an id after the replies to those before it. */
static void run_calls(const unsigned char *requests, size_t length) {
    size_t sent = 0;
    for (size_t at = 0; at < length;) {
        const unsigned char *payload = requests + at + HEADER;
        size_t size = number_at(requests + at + 4);
        if (requests[at + HEADER - 1] == SCRIPT) {
            check(betable_engine_send(&engine, BETABLE_ENGINE_SCRIPT, payload, size), true);
            sent++;
        } else {
            betable_fault fault;
            receive(&sent);
            int result = betable_engine_once(&engine, payload, payload[BETABLE_ENGINE_ID], payload + BETABLE_ENGINE_ID + 1, size - BETABLE_ENGINE_ID - 1, &fault);
            check(result, true);
            print_reply(result);
        }
        at += HEADER + size;
    }
    receive(&sent);
}

/* ---- the input ---- */

/* The number of bytes of the whole frames that bytes begin with. */
static size_t whole(const unsigned char *bytes, size_t length) {
    size_t at = 0;
    while (length - at >= HEADER && length - at - HEADER >= number_at(bytes + at + 4))
        at += HEADER + number_at(bytes + at + 4);
    return at;
}

int main(int count, char **words) {
    if (count != 4)
        return 2;
    bool is_by_frames = strcmp(words[1], "frames") == 0;
    check(is_by_frames ? (int)betable_file_open(&file, words[3]) : betable_engine_open_file(&engine, words[3]), false);
    unsigned char *input = NULL;
    size_t length = 0, room = 0;
    for (;;) {
        if (room - length < PIECE) {
            room = 2 * room + PIECE;
            unsigned char *larger = realloc(input, room);
            if (larger == NULL)
                end(1, "out of memory");
            input = larger;
        }
        ssize_t got = read(STDIN_FILENO, input + length, PIECE);
        if (got < 0 && errno != EINTR)
            end(1, "read failed");
        if (got == 0)
            break;
        length += got > 0 ? (size_t)got : 0;
        size_t taken = whole(input, length);
        if (taken > 0)
            (is_by_frames ? run_frames : run_calls)(input, taken);
        memmove(input, input + taken, length - taken);
        length -= taken;
    }
    free(input);
    betable_file_close(&file);
    betable_engine_close(&engine);
    return 0;
}
