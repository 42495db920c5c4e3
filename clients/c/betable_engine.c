/* The calls of betable_engine.h: requests and replies in frames, over two pipes, or to a table of this process. A frame is the letters BTF, the version 1, the
 * length of the payload in eight bytes, the kind in one byte, and the payload. */
#define _GNU_SOURCE /* pipe2 */
#include "betable_engine_local.h"

#include <errno.h>
#include <fcntl.h>
#include <poll.h>
#include <signal.h>
#include <spawn.h>
#include <stdio.h>
#include <stdlib.h>
#include <string.h>
#include <sys/uio.h>
#include <sys/wait.h>
#include <time.h>
#include <unistd.h>

enum { HEADER = 13, ONCE = 12, ONCE_HEADER = HEADER + BETABLE_ENGINE_ID + 1, MARK = 9, NUMBER = 8, PIECE = 65536 };
enum { REPLY_DONE, REPLY_REFUSED, REPLY_INVALID };

/* The bytes from `start` to `end` of a block. */
typedef struct {
    unsigned char *at;
    size_t start, end, room;
} buffer;

struct betable_engine_state {
    pid_t process; /* 0 after it was waited for */
    int to, from;
    buffer kinds;   /* of the requests whose replies are due */
    buffer arrived; /* bytes of replies that were read while a request was written */
    buffer reply;   /* the payload of the last reply, which is a text and then marks */
    size_t text_length, mark_count, refused_count;
    /* Of a table of this process: the frames of requests that were not carried out, how many requests of the last run have a reply that was not received, and how
       many bytes of its replies were copied. */
    const betable_engine_local *local;
    void *table;
    buffer requests;
    size_t answered, copied;
};
typedef struct betable_engine_state state;

/* ---- bytes ---- */

static uint64_t number_at(const unsigned char *bytes) {
    uint64_t number = 0;
    for (int place = NUMBER; place-- > 0;)
        number = number << 8 | bytes[place];
    return number;
}

static size_t count_of(const buffer *of) { return of->end - of->start; }

/* Makes room for this many bytes after the end. */
static bool make_room(buffer *of, size_t count) {
    if (of->start > 0 && of->start >= count_of(of)) {
        memmove(of->at, of->at + of->start, count_of(of));
        of->end -= of->start;
        of->start = 0;
    }
    if (of->room - of->end >= count)
        return true;
    if (count > SIZE_MAX / 4 - of->end)
        return false;
    size_t room = of->end + count < 2 * of->room ? 2 * of->room : of->end + count;
    unsigned char *larger = realloc(of->at, room);
    if (larger == NULL)
        return false;
    of->at = larger;
    of->room = room;
    return true;
}

static void clear_reply(state *of) { of->reply.end = of->text_length = of->mark_count = of->refused_count = 0; }

/* ---- the process ---- */

static void close_end(int *end) {
    if (*end >= 0)
        close(*end);
    *end = -1;
}

/* Makes a pipe whose ends are not those of the standard streams, which the caller may have closed. */
static bool open_pipe(int ends[2]) {
    if (pipe2(ends, O_CLOEXEC) != 0)
        return false;
    for (int place = 0; place < 2; place++) {
        if (ends[place] <= STDERR_FILENO) {
            int moved = fcntl(ends[place], F_DUPFD_CLOEXEC, STDERR_FILENO + 1), fault = errno;
            close(ends[place]);
            ends[place] = moved;
            errno = fault;
        }
    }
    return ends[0] >= 0 && ends[1] >= 0;
}

/* Starts the program with these streams, and returns 0 or a number of errno. */
static int spawn(pid_t *process, const betable_engine_options *options, int input, int output) {
    const struct {
        const char *name;
        uint64_t number;
    } given[] = {{"--workers", options->workers}, {"--cut", options->cut}, {"--grain", options->grain}, {"--most-frame", options->most_frame}};
    const char *program = options->program == NULL ? "betable_engine" : options->program;
    char numbers[4][24];
    const char *words[12] = {program};
    size_t count = 1;
    for (size_t option = 0; option < 4; option++) {
        if (given[option].number > 0) {
            snprintf(numbers[option], sizeof numbers[option], "%llu", (unsigned long long)given[option].number);
            words[count++] = given[option].name;
            words[count++] = numbers[option];
        }
    }
    if (options->keep != NULL) {
        words[count++] = "--keep";
        words[count++] = options->keep;
    }
    posix_spawn_file_actions_t actions;
    posix_spawnattr_t attributes;
    sigset_t none, usual;
    sigemptyset(&none);
    sigemptyset(&usual);
    sigaddset(&usual, SIGPIPE);
    if (posix_spawn_file_actions_init(&actions) != 0)
        return ENOMEM;
    if (posix_spawnattr_init(&attributes) != 0) {
        posix_spawn_file_actions_destroy(&actions);
        return ENOMEM;
    }
    bool is_set = posix_spawn_file_actions_adddup2(&actions, input, STDIN_FILENO) == 0 &&
                  posix_spawn_file_actions_adddup2(&actions, output, STDOUT_FILENO) == 0 &&
                  posix_spawnattr_setflags(&attributes, POSIX_SPAWN_SETPGROUP | POSIX_SPAWN_SETSIGMASK | POSIX_SPAWN_SETSIGDEF) == 0 &&
                  posix_spawnattr_setsigmask(&attributes, &none) == 0 && posix_spawnattr_setsigdefault(&attributes, &usual) == 0;
    int fault = is_set ? posix_spawnp(process, program, &actions, &attributes, (char *const *)words, environ) : ENOMEM;
    posix_spawnattr_destroy(&attributes);
    posix_spawn_file_actions_destroy(&actions);
    return fault;
}

/* Starts the process, or returns false, with errno. The end to which requests are written does not block: see write_frame. */
static bool start(state *of, const betable_engine_options *options) {
    int requests[2] = {-1, -1}, replies[2] = {-1, -1}, fault = 0;
    if (!open_pipe(requests) || !open_pipe(replies) || fcntl(requests[1], F_SETFL, O_NONBLOCK) != 0)
        fault = errno;
    else
        fault = spawn(&of->process, options, requests[0], replies[1]);
    if (fault != 0)
        of->process = 0;
    close_end(&requests[0]);
    close_end(&replies[1]);
    of->to = requests[1];
    of->from = replies[0];
    errno = fault;
    return fault == 0;
}

static void wait_for_end(betable_engine *engine) {
    pid_t found = 0;
    while (engine->at->process != 0 && (found = waitpid(engine->at->process, &engine->wait_status, 0)) < 0 && errno == EINTR)
        ;
    if (found < 0)
        engine->wait_status = -1;
    engine->at->process = 0;
}

static betable_engine_status ended(betable_engine *engine) {
    wait_for_end(engine);
    return BETABLE_ENGINE_ENDED;
}

static void kill_process(betable_engine *engine) {
    if (engine->at->process != 0)
        kill(engine->at->process, SIGKILL);
    wait_for_end(engine);
}

static betable_engine_status other_program(betable_engine *engine) {
    kill_process(engine);
    clear_reply(engine->at);
    engine->at->kinds.start = engine->at->kinds.end;
    return BETABLE_ENGINE_OTHER_PROGRAM;
}

static void free_state(betable_engine *engine) {
    close_end(&engine->at->to);
    close_end(&engine->at->from);
    wait_for_end(engine);
    if (engine->at->local != NULL)
        engine->at->local->close(engine->at->table);
    free(engine->at->kinds.at);
    free(engine->at->arrived.at);
    free(engine->at->reply.at);
    free(engine->at->requests.at);
    free(engine->at);
    engine->at = NULL;
}

/* ---- requests ---- */

/* Waits until the pipe takes bytes, and reads the replies that arrive meanwhile: without that, the engine and this process would wait for each other. */
static betable_engine_status wait_for_room(betable_engine *engine) {
    state *of = engine->at;
    struct pollfd ends[] = {{of->to, POLLOUT, 0}, {of->from, POLLIN, 0}};
    if (poll(ends, 2, -1) <= 0 || ends[1].revents == 0)
        return BETABLE_DONE;
    if (!make_room(&of->arrived, PIECE)) {
        kill_process(engine);
        return BETABLE_OUT_OF_MEMORY;
    }
    ssize_t count = read(of->from, of->arrived.at + of->arrived.end, PIECE);
    if (count > 0)
        of->arrived.end += (size_t)count;
    return count > 0 || (count < 0 && errno == EINTR) ? BETABLE_DONE : ended(engine);
}

static betable_engine_status write_frame(betable_engine *engine, unsigned char *header, size_t start, const unsigned char *bytes, size_t length) {
    betable_engine_status status = BETABLE_DONE;
    for (size_t at = 0; at < start + length && status == BETABLE_DONE;) {
        size_t of_header = at < start ? start - at : 0, of_bytes = at < start ? 0 : at - start;
        struct iovec parts[] = {{header + (start - of_header), of_header}, {(unsigned char *)bytes + of_bytes, length - of_bytes}};
        ssize_t count = writev(engine->at->to, parts, 2);
        if (count >= 0)
            at += (size_t)count;
        else if (errno == EAGAIN)
            status = wait_for_room(engine);
        else if (errno != EINTR)
            status = ended(engine);
    }
    return status;
}

/* Writes a frame while SIGPIPE is blocked, and takes away the one that this thread gets if the engine has ended. One that was pending before stays so. */
static betable_engine_status write_without_signal(betable_engine *engine, unsigned char *header, size_t start, const unsigned char *bytes, size_t length) {
    static const struct timespec at_once = {0, 0};
    sigset_t of_pipes, before, pending;
    sigemptyset(&of_pipes);
    sigaddset(&of_pipes, SIGPIPE);
    sigemptyset(&pending);
    pthread_sigmask(SIG_BLOCK, &of_pipes, &before);
    if (sigismember(&before, SIGPIPE))
        sigpending(&pending);
    betable_engine_status status = write_frame(engine, header, start, bytes, length);
    if (status == BETABLE_ENGINE_ENDED && !sigismember(&pending, SIGPIPE))
        while (sigtimedwait(&of_pipes, NULL, &at_once) < 0 && errno == EINTR)
            ;
    pthread_sigmask(SIG_SETMASK, &before, NULL);
    return status;
}

/* ---- a table of this process ---- */

static betable_engine_status add_frame(state *of, const unsigned char *header, size_t start, const unsigned char *bytes, size_t length) {
    if (!make_room(&of->requests, start + length))
        return BETABLE_OUT_OF_MEMORY;
    memcpy(of->requests.at + of->requests.end, header, start);
    if (length > 0)
        memcpy(of->requests.at + of->requests.end + start, bytes, length);
    of->requests.end += start + length;
    return BETABLE_DONE;
}

/* Carries out the requests that were sent, if no reply to those before them is left. */
static betable_engine_status run_requests(state *of) {
    if (of->answered > 0)
        return BETABLE_DONE;
    size_t length = of->requests.end;
    of->requests.end = of->copied = 0;
    betable_engine_status status = of->local->run(of->table, length == 0 ? (const unsigned char *)"" : of->requests.at, length);
    of->answered = status == BETABLE_DONE ? count_of(&of->kinds) : 0;
    return status;
}

static bool copy_bytes(state *of, unsigned char *out, size_t count) {
    size_t copied = of->local->copy_replies(of->table, of->copied, out, count);
    of->copied += copied;
    return copied == count;
}

betable_engine_status betable_engine_open_local(betable_engine *engine, const betable_engine_local *calls, void *table) {
    if ((engine->at = malloc(sizeof *engine->at)) == NULL)
        return BETABLE_OUT_OF_MEMORY;
    *engine->at = (state){.to = -1, .from = -1, .local = calls, .table = table};
    engine->wait_status = 0;
    return BETABLE_DONE;
}

betable_engine_status betable_engine_checkpoint(betable_engine *engine) {
    if (engine->at == NULL)
        return BETABLE_NOT_OPEN;
    if (engine->at->local == NULL)
        return BETABLE_NOT_KEPT;
    clear_reply(engine->at);
    return count_of(&engine->at->kinds) > 0 ? BETABLE_ENGINE_OUT_OF_ORDER : engine->at->local->checkpoint(engine->at->table);
}

/* ---- sending ---- */

/* Sends a request, which runs once if it has an id. */
static betable_engine_status send_request(betable_engine *engine, const unsigned char *id, betable_engine_request kind, const unsigned char *bytes, size_t length) {
    unsigned char header[ONCE_HEADER] = {'B', 'T', 'F', 1};
    size_t start = id == NULL ? HEADER : ONCE_HEADER;
    for (int place = 0; place < NUMBER; place++)
        header[4 + place] = (unsigned char)((uint64_t)(start - HEADER + length) >> 8 * place & 255);
    header[HEADER - 1] = id == NULL ? (unsigned char)kind : ONCE;
    if (id != NULL) {
        memcpy(header + HEADER, id, BETABLE_ENGINE_ID);
        header[ONCE_HEADER - 1] = (unsigned char)kind;
    }
    if (engine->at == NULL)
        return BETABLE_NOT_OPEN;
    if (!make_room(&engine->at->kinds, 1))
        return BETABLE_OUT_OF_MEMORY;
    betable_engine_status status = engine->at->local != NULL ? add_frame(engine->at, header, start, bytes, length)
                                                             : write_without_signal(engine, header, start, bytes, length);
    if (status == BETABLE_DONE)
        engine->at->kinds.at[engine->at->kinds.end++] = (unsigned char)kind;
    return status;
}

betable_engine_status betable_engine_send(betable_engine *engine, betable_engine_request kind, const unsigned char *bytes, size_t length) {
    return send_request(engine, NULL, kind, bytes, length);
}

/* ---- replies ---- */

/* Reads this many bytes: those that have arrived, and then those of the pipe. False if the pipe ends first. */
static bool read_bytes(state *of, unsigned char *out, size_t count) {
    if (of->local != NULL)
        return copy_bytes(of, out, count);
    size_t first = count < count_of(&of->arrived) ? count : count_of(&of->arrived);
    if (first > 0)
        memcpy(out, of->arrived.at + of->arrived.start, first);
    of->arrived.start += first;
    for (size_t at = first; at < count;) {
        ssize_t got = read(of->from, out + at, count - at);
        if (got == 0 || (got < 0 && errno != EINTR))
            return false;
        at += got > 0 ? (size_t)got : 0;
    }
    return true;
}

static bool pass_over(state *of, uint64_t count) {
    unsigned char piece[4096];
    for (size_t next; count > 0; count -= next) {
        next = count < sizeof piece ? (size_t)count : sizeof piece;
        if (!read_bytes(of, piece, next))
            return false;
    }
    return true;
}

/* Finds the text and the marks of the reply to a script. False if it has none. */
static bool find_marks(state *of, bool is_check) {
    if (of->reply.end < NUMBER)
        return false;
    size_t length = of->reply.end - NUMBER, refused = 0;
    uint64_t text = number_at(of->reply.at + length), end = 0;
    if (text > length || (length - text) % MARK != 0)
        return false;
    for (size_t at = (size_t)text; at < length; at += MARK) {
        uint64_t next = number_at(of->reply.at + at);
        if (next < end || next > text || of->reply.at[at + NUMBER] > BETABLE_COMMAND_REFUSED)
            return false;
        end = next;
        refused += of->reply.at[at + NUMBER] == BETABLE_COMMAND_REFUSED;
    }
    of->text_length = (size_t)text;
    of->mark_count = (length - (size_t)text) / MARK;
    of->refused_count = is_check ? 0 : refused;
    return end == text;
}

/* Whether the payload of a reply that is done is one to a request of this kind. */
static bool is_reply_to(state *of, int kind) {
    of->text_length = of->reply.end;
    switch (kind) {
    case BETABLE_ENGINE_SCRIPT:
    case BETABLE_ENGINE_CHECK:
        return find_marks(of, kind == BETABLE_ENGINE_CHECK);
    case BETABLE_ENGINE_APPLY:
        return of->reply.end == 0;
    case BETABLE_ENGINE_EXPLAIN:
        return of->reply.end == 0 || of->reply.end == 4 * NUMBER;
    default:
        return of->reply.end >= 4 && memcmp(of->reply.at, "BTV\1", 4) == 0;
    }
}

betable_engine_status betable_engine_receive(betable_engine *engine, betable_fault *fault) {
    state *of = engine->at;
    unsigned char header[HEADER];
    if (of == NULL)
        return BETABLE_NOT_OPEN;
    clear_reply(of);
    if (count_of(&of->kinds) == 0)
        return BETABLE_ENGINE_OUT_OF_ORDER;
    betable_engine_status status = of->local != NULL ? run_requests(of) : BETABLE_DONE;
    int kind = of->kinds.at[of->kinds.start++];
    if (status != BETABLE_DONE)
        return status;
    of->answered -= of->local != NULL;
    if (!read_bytes(of, header, HEADER))
        return ended(engine);
    uint64_t length = number_at(header + 4);
    if (memcmp(header, "BTF\1", 4) != 0 || header[HEADER - 1] > REPLY_INVALID)
        return other_program(engine);
    if (length > SIZE_MAX || !make_room(&of->reply, (size_t)length))
        return pass_over(of, length) ? BETABLE_OUT_OF_MEMORY : ended(engine);
    if (!read_bytes(of, of->reply.at, (size_t)length))
        return ended(engine);
    of->reply.end = (size_t)length;
    if (header[HEADER - 1] == REPLY_DONE)
        return is_reply_to(of, kind) ? BETABLE_DONE : other_program(engine);
    of->text_length = of->reply.end;
    if (header[HEADER - 1] == REPLY_INVALID)
        return BETABLE_ENGINE_INVALID;
    if (length != 3 * NUMBER)
        return other_program(engine);
    *fault = (betable_fault){number_at(of->reply.at), number_at(of->reply.at + NUMBER), number_at(of->reply.at + 2 * NUMBER)};
    clear_reply(of);
    return BETABLE_REFUSED;
}

const unsigned char *betable_engine_replies(const betable_engine *engine, size_t *length) {
    *length = engine->at == NULL ? 0 : engine->at->text_length;
    return *length == 0 ? (const unsigned char *)"" : engine->at->reply.at;
}

size_t betable_engine_refused_count(const betable_engine *engine) { return engine->at == NULL ? 0 : engine->at->refused_count; }

size_t betable_engine_reply_count(const betable_engine *engine) { return engine->at == NULL ? 0 : engine->at->mark_count; }

bool betable_engine_reply(const betable_engine *engine, size_t place, betable_reply_place *reply) {
    if (place >= betable_engine_reply_count(engine))
        return false;
    const unsigned char *mark = engine->at->reply.at + engine->at->text_length + MARK * place;
    uint64_t offset = place == 0 ? 0 : number_at(mark - MARK);
    *reply = (betable_reply_place){offset, number_at(mark) - offset, mark[NUMBER]};
    return true;
}

/* ---- calls ---- */

static betable_engine_status make_request(
    betable_engine *engine, const unsigned char *id, betable_engine_request kind, const unsigned char *bytes, size_t length, betable_fault *fault) {
    if (engine->at == NULL)
        return BETABLE_NOT_OPEN;
    clear_reply(engine->at);
    if (count_of(&engine->at->kinds) > 0)
        return BETABLE_ENGINE_OUT_OF_ORDER;
    betable_engine_status status = send_request(engine, id, kind, bytes, length);
    return status == BETABLE_DONE ? betable_engine_receive(engine, fault) : status;
}

static betable_engine_status call(betable_engine *engine, betable_engine_request kind, const unsigned char *bytes, size_t length, betable_fault *fault) {
    return make_request(engine, NULL, kind, bytes, length, fault);
}

betable_engine_status betable_engine_open(betable_engine *engine, const betable_engine_options *options) {
    if (engine->at != NULL)
        return BETABLE_ALREADY_OPEN;
    if ((engine->at = malloc(sizeof *engine->at)) == NULL)
        return BETABLE_OUT_OF_MEMORY;
    *engine->at = (state){.to = -1, .from = -1};
    engine->wait_status = 0;
    betable_engine_status status = start(engine->at, options) ? betable_engine_run(engine, (const unsigned char *)"", 0) : BETABLE_ENGINE_NOT_STARTED;
    int fault = errno;
    if (status != BETABLE_DONE)
        free_state(engine);
    errno = fault;
    return status;
}

betable_engine_status betable_engine_run(betable_engine *engine, const unsigned char *script, size_t length) {
    betable_fault fault;
    return call(engine, BETABLE_ENGINE_SCRIPT, script, length, &fault);
}

betable_engine_status betable_engine_check(betable_engine *engine, const unsigned char *script, size_t length) {
    betable_fault fault;
    return call(engine, BETABLE_ENGINE_CHECK, script, length, &fault);
}

/* The replies to the call before are kept, so this one is read into a buffer of its own. */
betable_engine_status betable_engine_explain(betable_engine *engine, const unsigned char *script, size_t length, betable_reason *reason) {
    if (engine->at == NULL)
        return BETABLE_NOT_OPEN;
    state *of = engine->at, before = *of;
    betable_fault fault;
    of->reply = (buffer){NULL, 0, 0, 0};
    betable_engine_status status = call(engine, BETABLE_ENGINE_EXPLAIN, script, length, &fault);
    if (status == BETABLE_DONE && of->reply.end > 0) {
        const unsigned char *found = of->reply.at;
        *reason = (betable_reason){number_at(found), number_at(found + NUMBER), number_at(found + 2 * NUMBER), (uint32_t)number_at(found + 3 * NUMBER)};
        status = BETABLE_REFUSED;
    }
    free(of->reply.at);
    of->reply = before.reply;
    of->text_length = before.text_length;
    of->mark_count = before.mark_count;
    of->refused_count = before.refused_count;
    return status;
}

#define PACKED_CALL(name, kind) \
    betable_engine_status betable_engine_##name(betable_engine *engine, const unsigned char *bytes, size_t length, betable_fault *fault) { \
        return call(engine, kind, bytes, length, fault); \
    }

PACKED_CALL(apply, BETABLE_ENGINE_APPLY)
PACKED_CALL(get, BETABLE_ENGINE_GET)
PACKED_CALL(page, BETABLE_ENGINE_PAGE)
PACKED_CALL(last_page, BETABLE_ENGINE_LAST_PAGE)
PACKED_CALL(sums, BETABLE_ENGINE_SUMS)
PACKED_CALL(columns, BETABLE_ENGINE_COLUMNS)
PACKED_CALL(usage, BETABLE_ENGINE_USAGE)
PACKED_CALL(trees, BETABLE_ENGINE_TREES)

betable_engine_status betable_engine_once(
    betable_engine *engine, const unsigned char *id, betable_engine_request kind, const unsigned char *bytes, size_t length, betable_fault *fault) {
    return make_request(engine, id, kind, bytes, length, fault);
}

pid_t betable_engine_process(const betable_engine *engine) { return engine->at == NULL ? 0 : engine->at->process; }

betable_engine_status betable_engine_close(betable_engine *engine) {
    if (engine->at == NULL)
        return BETABLE_NOT_OPEN;
    unsigned char piece[4096];
    ssize_t count = 0;
    close_end(&engine->at->to);
    if (engine->at->local == NULL)
        do
            count = read(engine->at->from, piece, sizeof piece);
        while (count > 0 || (count < 0 && errno == EINTR));
    else if (engine->at->requests.end > 0) {
        engine->at->answered = 0;
        run_requests(engine->at);
    }
    free_state(engine);
    return BETABLE_DONE;
}
