/* The calls of an engine beside those of a session, on one list of scripts and of random packed bytes. If PROGRAM is a folder, with `/` at its end, the table of the
 * engine is in a file there, in this process.
 *
 *     engine_pairs PROGRAM WORKERS SEED COUNT SCRIPT IMAGES PLACE .. [-- SCRIPT IMAGES PLACE ..] ..
 *
 * PLACE .. are the places at which the commands of a script begin, and its end; IMAGES is a file with a script of the images of its trees. Each command is
 * checked, explained and run by both. Then an engine has all commands sent ahead, and their replies are received. After the scripts, COUNT random requests
 * (a multiple of 100) are made of both, one by one, and again sent ahead. The status is 1 at the first difference, which is printed. Prints how many
 * commands and requests were refused, and how many not. */
#include "betable_engine.h"
#include "files.h"
#include "requests.h"

typedef betable_engine_status engine_call(betable_engine *engine, const unsigned char *given, size_t length, betable_fault *fault);

static packed_call *const OF_SESSION[CALLS] = {
    betable_apply, betable_get, betable_page, betable_last_page, betable_sums, betable_columns, betable_usage, betable_trees,
};
static engine_call *const OF_ENGINE[CALLS] = {
    betable_engine_apply, betable_engine_get,     betable_engine_page,  betable_engine_last_page,
    betable_engine_sums,  betable_engine_columns, betable_engine_usage, betable_engine_trees,
};
static const betable_engine_request KIND[CALLS] = {
    BETABLE_ENGINE_APPLY, BETABLE_ENGINE_GET,     BETABLE_ENGINE_PAGE,  BETABLE_ENGINE_LAST_PAGE,
    BETABLE_ENGINE_SUMS,  BETABLE_ENGINE_COLUMNS, BETABLE_ENGINE_USAGE, BETABLE_ENGINE_TREES,
};

static betable_session session = BETABLE_CLOSED;
static betable_engine engine = BETABLE_ENGINE_CLOSED;
static betable_engine_options options;
static long done = 0, refused = 0;

static void expect(bool is_so, const char *what, const char *where, size_t number) {
    if (!is_so) {
        printf("%s: %s %zu\n", what, where, number);
        exit(1);
    }
}

/* ---- what a call leaves ---- */

/* The replies of a call, and where each is. */
typedef struct {
    betable_engine_status status;
    betable_fault fault;
    bytes replies;
    betable_reply_place *places;
    size_t count, refused_count;
} outcome;

static outcome of_session(betable_status status, betable_fault fault) {
    outcome found = {(int)status, fault, {NULL, betable_replies_length(&session)}, NULL, betable_reply_count(&session), betable_refused_count(&session)};
    found.replies.at = malloc(found.replies.length + 1);
    found.places = calloc(found.count + 1, sizeof *found.places);
    betable_copy_replies(&session, 0, found.replies.at, found.replies.length);
    for (size_t place = 0; place < found.count; place++) {
        betable_reply(&session, place, &found.places[place]);
    }
    return found;
}

/* Compares what a call of the engine leaves with that of the session, which is freed. */
static void compare(betable_engine_status status, betable_fault fault, outcome wanted, const char *where, size_t number) {
    size_t length;
    const unsigned char *replies = betable_engine_replies(&engine, &length);
    betable_reply_place place = {9, 9, 9};
    expect(status == wanted.status, "another status", where, number);
    expect(memcmp(&fault, &wanted.fault, sizeof fault) == 0, "another fault", where, number);
    expect(length == wanted.replies.length && memcmp(replies, wanted.replies.at, length) == 0, "other replies", where, number);
    expect(betable_engine_reply_count(&engine) == wanted.count, "another number of replies", where, number);
    expect(betable_engine_refused_count(&engine) == wanted.refused_count, "another number of refused commands", where, number);
    for (size_t at = 0; at < wanted.count; at++) {
        expect(betable_engine_reply(&engine, at, &place), "no reply", where, number);
        expect(place.offset == wanted.places[at].offset && place.length == wanted.places[at].length && place.kind == wanted.places[at].kind, "another place",
               where, number);
    }
    expect(!betable_engine_reply(&engine, wanted.count, &place), "a reply too many", where, number);
    free(wanted.replies.at);
    free(wanted.places);
}

static const betable_fault UNWRITTEN = {99, 99, 99};

static void open_both(void) {
    expect(betable_open(&session) == BETABLE_DONE, "a session", "open", 0);
    const char *program = options.program;
    if (program[strlen(program) - 1] == '/') {
        char path[4096];
        snprintf(path, sizeof path, "%stable", program);
        remove(path);
        expect(betable_engine_open_file(&engine, path) == BETABLE_DONE, "an engine", "open", 0);
    } else {
        expect(betable_engine_open(&engine, &options) == BETABLE_DONE, "an engine", "open", 0);
    }
}

static void close_both(void) {
    expect(betable_close(&session) == BETABLE_DONE, "a session", "close", 0);
    expect(betable_engine_close(&engine) == BETABLE_DONE && engine.wait_status == 0, "an engine", "close", (size_t)engine.wait_status);
}

/* ---- scripts ---- */

static outcome run_session(const unsigned char *script, size_t length) {
    betable_status status = betable_run(&session, script, length);
    return of_session(status, UNWRITTEN);
}

static void run_both(const unsigned char *script, size_t length, const char *where, size_t number) {
    compare(betable_engine_run(&engine, script, length), UNWRITTEN, run_session(script, length), where, number);
}

static void check_and_run(const unsigned char *command, size_t length, const char *where, size_t number) {
    betable_reason reason = {99, 99, 99, 99}, wanted = reason;
    betable_status status = betable_check(&session, command, length);
    compare(betable_engine_check(&engine, command, length), UNWRITTEN, of_session(status, UNWRITTEN), where, number);
    size_t before = betable_engine_reply_count(&engine);
    status = betable_explain(&session, command, length, &wanted);
    expect(betable_engine_explain(&engine, command, length, &reason) == (int)status, "another status of a reason", where, number);
    expect(reason.refusal == wanted.refusal && reason.item == wanted.item && reason.field == wanted.field && reason.problem == wanted.problem, "another reason",
           where, number);
    expect(betable_engine_reply_count(&engine) == before, "a reason in the place of replies", where, number);
    run_both(command, length, where, number);
    refused += (long)betable_engine_refused_count(&engine);
    done += (long)(betable_engine_reply_count(&engine) - betable_engine_refused_count(&engine));
}

static void take_script(char **words, int count) {
    bytes script = file_bytes(words[0]), images = file_bytes(words[1]);
    size_t number = (size_t)count - 3, *places = calloc(number + 1, sizeof *places);
    outcome *wanted = calloc(number + 1, sizeof *wanted);
    for (size_t place = 0; place <= number; place++) {
        places[place] = strtoul(words[2 + place], NULL, 10);
    }
    open_both();
    for (size_t command = 0; command < number; command++) {
        check_and_run(script.at + places[command], places[command + 1] - places[command], words[0], command);
    }
    run_both(images.at, images.length, words[0], number);
    close_both();
    open_both();
    for (size_t command = 0; command < number; command++) {
        size_t length = places[command + 1] - places[command];
        expect(betable_engine_send(&engine, BETABLE_ENGINE_SCRIPT, script.at + places[command], length) == BETABLE_DONE, "not sent", words[0], command);
        wanted[command] = run_session(script.at + places[command], length);
    }
    for (size_t command = 0; command < number; command++) {
        betable_fault fault = UNWRITTEN;
        betable_engine_status status = betable_engine_receive(&engine, &fault);
        compare(status, fault, wanted[command], words[0], command);
    }
    run_both(images.at, images.length, words[0], number);
    close_both();
    free(script.at), free(images.at), free(places), free(wanted);
}

/* ---- packed bytes ---- */

static outcome call_session(size_t call, const message *given) {
    betable_fault fault = UNWRITTEN;
    betable_status status = OF_SESSION[call](&session, given->at, given->length, &fault);
    *(status == BETABLE_DONE ? &done : &refused) += 1;
    return of_session(status, fault);
}

static void take_random_requests(size_t count) {
    enum { AHEAD = 100 };
    static message given;
    static outcome wanted[AHEAD];
    open_both();
    run_both((const unsigned char *)SCHEMA, strlen(SCHEMA), "schema", 0);
    for (size_t number = 0; number < count; number++) {
        betable_fault fault = UNWRITTEN;
        size_t call = below(10) < 6 ? APPLY : GET + below(CALLS - 1);
        write_message(&given, call);
        outcome of_call = call_session(call, &given);
        bool is_ahead = number / AHEAD % 2 == 1;
        if (is_ahead) {
            expect(betable_engine_send(&engine, KIND[call], given.at, given.length) == BETABLE_DONE, "not sent", "request", number);
            wanted[number % AHEAD] = of_call;
        } else {
            betable_engine_status status = OF_ENGINE[call](&engine, given.at, given.length, &fault);
            compare(status, fault, of_call, "request", number);
        }
        if (number % AHEAD == AHEAD - 1) {
            for (size_t place = 0; is_ahead && place < AHEAD; place++) {
                fault = UNWRITTEN;
                betable_engine_status status = betable_engine_receive(&engine, &fault);
                compare(status, fault, wanted[place], "request", number - AHEAD + 1 + place);
            }
            run_both((const unsigned char *)IMAGES, strlen(IMAGES), "images", number);
        }
    }
    close_both();
}

int main(int count, char **words) {
    options = (betable_engine_options){.program = words[1], .workers = (unsigned)strtoul(words[2], NULL, 10)};
    dice += strtoull(words[3], NULL, 10);
    for (int first = 5, last; first < count; first = last + 1) {
        for (last = first; last < count && strcmp(words[last], "--") != 0;) {
            last++;
        }
        take_script(words + first, last - first);
    }
    printf("scripts: %ld done, %ld refused\n", done, refused);
    done = refused = 0;
    take_random_requests(strtoul(words[4], NULL, 10));
    printf("requests: %ld done, %ld refused\n", done, refused);
    return 0;
}
