/* How an engine begins and ends, and what it does to its caller: a program without the library.
 *
 *     engine_ends full | killed | closed | missing | streams | interrupted | order | pending PROGRAM WORKERS
 *     engine_ends idle | busy PROGRAM WORKERS CUT GRAIN MOST_FRAME
 *                                                     prints the id of the process of the engine, and waits for a signal
 *     engine_ends open PROGRAM WORKERS                prints the status of betable_engine_open and the wait status
 *     engine_ends replies PROGRAM CALL ..             prints the status of each call, and what it leaves; CALL is run, check, explain, apply, get, send or
 *     receive
 *
 * The status is 1, and a line says where, if what the word names does not hold. */
#define _GNU_SOURCE
#include "betable_engine.h"

#include <errno.h>
#include <fcntl.h>
#include <inttypes.h>
#include <signal.h>
#include <spawn.h>
#include <stdio.h>
#include <stdlib.h>
#include <string.h>
#include <sys/resource.h>
#include <sys/stat.h>
#include <sys/time.h>
#include <sys/wait.h>
#include <unistd.h>

#define EXPECT(what) expect(what, #what, __LINE__)

static void expect(bool is_so, const char *what, int line) {
    if (!is_so) {
        dprintf(STDERR_FILENO, "line %d: not %s\n", line, what);
        _exit(1);
    }
}

static betable_engine_options options;
static const char TABLE[] = "table 16 1024 256 1 id:int raw:bytes\n";
enum { ROWS = 4000, ROW = 1 + 8 + 1 + 250, CHANGES = 8 + ROWS * ROW };

static betable_engine_status run(betable_engine *engine, const char *script) {
    return betable_engine_run(engine, (const unsigned char *)script, strlen(script));
}

static betable_engine opened(void) {
    betable_engine engine = BETABLE_ENGINE_CLOSED;
    EXPECT(betable_engine_open(&engine, &options) == BETABLE_DONE);
    EXPECT(run(&engine, TABLE) == BETABLE_DONE);
    return engine;
}

static void add_number(unsigned char *at, uint64_t number, int size) {
    for (int place = 0; place < size; place++) {
        at[place] = (unsigned char)(number >> 8 * place & 255);
    }
}

/* A megabyte of puts of rows of 250 bytes, which are all the same byte. */
static unsigned char *changes_of(unsigned char byte) {
    unsigned char *bytes = malloc(CHANGES);
    memcpy(bytes, "BTV\1", 4);
    add_number(bytes + 4, ROWS, 4);
    for (size_t row = 0; row < ROWS; row++) {
        unsigned char *at = bytes + 8 + row * ROW;
        memset(at, byte, ROW);
        at[0] = 0;
        add_number(at + 1, row, 8);
        at[9] = 250;
    }
    return bytes;
}

static const unsigned char ALL[] = "BTV\1\xff\xff\xff\xff\7primary\0";

/* Whether the reply has all rows, with this byte in each. */
static bool has_rows_of(betable_engine *engine, unsigned char byte) {
    size_t length;
    const unsigned char *reply = betable_engine_replies(engine, &length);
    bool is_so = length == 4 + ROWS * (ROW - 1);
    for (size_t row = 0; is_so && row < ROWS; row++) {
        const unsigned char *at = reply + 4 + row * (ROW - 1);
        is_so = at[0] == (row & 255) && at[8] == 250 && at[9] == byte && at[ROW - 2] == byte;
    }
    return is_so;
}

/* Changes and pages of a megabyte each, sent ahead by turns, so that both pipes are full. */
static void check_full(void) {
    enum { TURNS = 12 };
    betable_engine engine = opened();
    betable_fault fault;
    for (int turn = 0; turn < TURNS; turn++) {
        unsigned char *changes = changes_of((unsigned char)turn);
        EXPECT(betable_engine_send(&engine, BETABLE_ENGINE_APPLY, changes, CHANGES) == BETABLE_DONE);
        EXPECT(betable_engine_send(&engine, BETABLE_ENGINE_PAGE, ALL, sizeof ALL) == BETABLE_DONE);
        free(changes);
    }
    for (int turn = 0; turn < TURNS; turn++) {
        EXPECT(betable_engine_receive(&engine, &fault) == BETABLE_DONE);
        EXPECT(betable_engine_receive(&engine, &fault) == BETABLE_DONE);
        EXPECT(has_rows_of(&engine, (unsigned char)turn));
    }
    EXPECT(betable_engine_receive(&engine, &fault) == BETABLE_ENGINE_OUT_OF_ORDER);
    /* With replies that are not received. */
    for (int turn = 0; turn < 3; turn++) {
        EXPECT(betable_engine_send(&engine, BETABLE_ENGINE_PAGE, ALL, sizeof ALL) == BETABLE_DONE);
    }
    EXPECT(betable_engine_close(&engine) == BETABLE_DONE && engine.wait_status == 0);
}

/* An engine that is killed with requests in flight: what it had replied is received, and then that it ended. The caller gets no signal, and no child is left.
 */
static void check_killed(void) {
    betable_engine engine = opened();
    betable_fault fault;
    unsigned char *changes = changes_of(7);
    size_t length;
    for (int turn = 0; turn < 3; turn++) {
        EXPECT(betable_engine_send(&engine, BETABLE_ENGINE_APPLY, changes, CHANGES) == BETABLE_DONE);
        EXPECT(betable_engine_send(&engine, BETABLE_ENGINE_PAGE, ALL, sizeof ALL) == BETABLE_DONE);
    }
    for (int turn = 0; turn < 2; turn++) {
        EXPECT(betable_engine_receive(&engine, &fault) == BETABLE_DONE);
    }
    EXPECT(has_rows_of(&engine, 7));
    pid_t process = betable_engine_process(&engine);
    EXPECT(process > 0 && kill(process, SIGKILL) == 0);
    betable_engine_status status = BETABLE_DONE;
    int done = 0, ended = 0;
    for (; (status = betable_engine_receive(&engine, &fault)) != BETABLE_ENGINE_OUT_OF_ORDER;
         done += status == BETABLE_DONE, ended += status == BETABLE_ENGINE_ENDED) {
        EXPECT(status == BETABLE_ENGINE_ENDED || (status == BETABLE_DONE && ended == 0));
        betable_engine_replies(&engine, &length);
        EXPECT(status == BETABLE_DONE || length == 0);
    }
    EXPECT(done + ended == 4);
    EXPECT(betable_engine_process(&engine) == 0 && WIFSIGNALED(engine.wait_status) && WTERMSIG(engine.wait_status) == SIGKILL);
    EXPECT(betable_engine_apply(&engine, changes, CHANGES, &fault) == BETABLE_ENGINE_ENDED);
    EXPECT(betable_engine_send(&engine, BETABLE_ENGINE_PAGE, ALL, sizeof ALL) == BETABLE_ENGINE_ENDED);
    EXPECT(run(&engine, "get 1\n") == BETABLE_ENGINE_ENDED);
    EXPECT(waitpid(-1, NULL, WNOHANG) == -1 && errno == ECHILD);
    EXPECT(betable_engine_close(&engine) == BETABLE_DONE && WTERMSIG(engine.wait_status) == SIGKILL);
    EXPECT(betable_engine_close(&engine) == BETABLE_NOT_OPEN);
    /* The next engine is another one. */
    EXPECT(betable_engine_open(&engine, &options) == BETABLE_DONE);
    EXPECT(betable_engine_apply(&engine, changes, CHANGES, &fault) == BETABLE_REFUSED && fault.refusal == 3);
    EXPECT(betable_engine_close(&engine) == BETABLE_DONE && engine.wait_status == 0);
    free(changes);
}

/* A SIGPIPE that was pending stays pending, and no other one is left. The signals that are blocked are as before. */
static void check_pending(void) {
    for (int is_pending = 0; is_pending < 2; is_pending++) {
        sigset_t pipes, found;
        sigemptyset(&pipes);
        sigaddset(&pipes, SIGPIPE);
        betable_engine engine = opened();
        sigprocmask(SIG_BLOCK, &pipes, &found);
        EXPECT(sigismember(&found, SIGPIPE) == 0);
        if (is_pending) {
            raise(SIGPIPE);
        }
        kill(betable_engine_process(&engine), SIGKILL);
        for (int turn = 0; turn < 3; turn++) {
            EXPECT(run(&engine, "get 1\n") == BETABLE_ENGINE_ENDED);
        }
        sigpending(&found);
        EXPECT(sigismember(&found, SIGPIPE) == is_pending);
        sigprocmask(SIG_BLOCK, NULL, &found);
        EXPECT(sigismember(&found, SIGPIPE) == 1 && sigismember(&found, SIGTERM) == 0);
        EXPECT(betable_engine_close(&engine) == BETABLE_DONE);
        signal(SIGPIPE, SIG_IGN);
        signal(SIGPIPE, SIG_DFL);
        sigprocmask(SIG_UNBLOCK, &pipes, NULL);
    }
}

static int open_count(void) {
    int count = 0;
    for (int number = 0; number < 256; number++) {
        count += fcntl(number, F_GETFD) >= 0;
    }
    return count;
}

/* No descriptor is left after a close, and none that reaches another process keeps an engine alive: the first one is closed first. */
static void check_closed(void) {
    int before = open_count();
    for (int turn = 0; turn < 3; turn++) {
        betable_engine first = opened(), second = opened(), third = opened();
        char *words[] = {"sleep", "300", NULL};
        pid_t sleeper;
        EXPECT(posix_spawnp(&sleeper, "sleep", NULL, NULL, words, environ) == 0);
        EXPECT(betable_engine_close(&first) == BETABLE_DONE && first.wait_status == 0);
        EXPECT(run(&third, "get 1\n") == BETABLE_DONE);
        EXPECT(betable_engine_close(&second) == BETABLE_DONE && betable_engine_close(&third) == BETABLE_DONE);
        kill(sleeper, SIGKILL);
        EXPECT(waitpid(sleeper, NULL, 0) == sleeper);
    }
    EXPECT(open_count() == before);
    EXPECT(waitpid(-1, NULL, WNOHANG) == -1 && errno == ECHILD);
}

/* A program that is not there, and no descriptors for pipes. */
static void check_missing(void) {
    int before = open_count();
    const char *program = options.program;
    betable_engine engine = BETABLE_ENGINE_CLOSED;
    options.program = "/nonexistent/betable_engine";
    EXPECT(betable_engine_open(&engine, &options) == BETABLE_ENGINE_NOT_STARTED && errno == ENOENT && engine.at == NULL);
    options.program = program;
    for (rlim_t most = 3; most < 9; most++) {
        struct rlimit limit, lower;
        EXPECT(getrlimit(RLIMIT_NOFILE, &limit) == 0);
        lower = limit;
        lower.rlim_cur = most;
        EXPECT(setrlimit(RLIMIT_NOFILE, &lower) == 0);
        betable_engine_status status = betable_engine_open(&engine, &options);
        EXPECT(most >= 7 ? status == BETABLE_DONE : status == BETABLE_ENGINE_NOT_STARTED && errno == EMFILE && engine.at == NULL);
        EXPECT(setrlimit(RLIMIT_NOFILE, &limit) == 0);
        EXPECT(betable_engine_close(&engine) == (most >= 7 ? BETABLE_DONE : BETABLE_NOT_OPEN));
    }
    EXPECT(open_count() == before);
}

/* A caller without standard streams: the pipes take the place of none of them, and the engine has only those of its own. */
static void check_streams(void) {
    int saved = fcntl(STDERR_FILENO, F_DUPFD_CLOEXEC, 10);
    for (int number = 0; number < 3; number++) {
        close(number);
    }
    betable_engine engine = opened();
    bool is_free = true, is_alone = true, has_both = true;
    for (int number = 0; number < 3; number++) {
        is_free = is_free && fcntl(number, F_GETFD) < 0;
    }
    for (int number = 0; number < 64; number++) {
        char path[64];
        struct stat status;
        snprintf(path, sizeof path, "/proc/%d/fd/%d", (int)betable_engine_process(&engine), number);
        bool is_open = lstat(path, &status) == 0;
        has_both = has_both && (number > 1 || is_open);
        /* The run-time system of a program may open files of its own, but no pipe. */
        is_alone = is_alone && !(number > 1 && is_open && stat(path, &status) == 0 && S_ISFIFO(status.st_mode));
    }
    betable_engine_status put = run(&engine, "batch\nput 1,ff\nend\nget 1\n");
    size_t length;
    const char *replies = (const char *)betable_engine_replies(&engine, &length);
    bool is_row = length == 17 && memcmp(replies, "batch 1\nrow 1,ff\n", length) == 0;
    betable_engine_status closed = betable_engine_close(&engine);
    dup2(saved, STDERR_FILENO);
    close(saved);
    EXPECT(is_free);
    EXPECT(has_both);
    EXPECT(is_alone);
    EXPECT(put == BETABLE_DONE && is_row);
    EXPECT(closed == BETABLE_DONE && engine.wait_status == 0);
}

static volatile sig_atomic_t signals = 0;
static void count_signal(int number) { signals = signals + (number == SIGALRM); }

/* Signals that interrupt calls of the system change nothing. */
static void check_interrupted(void) {
    struct sigaction action = {.sa_handler = count_signal};
    struct itimerval often = {{0, 300}, {0, 300}}, never = {{0, 0}, {0, 0}};
    EXPECT(sigaction(SIGALRM, &action, NULL) == 0 && setitimer(ITIMER_REAL, &often, NULL) == 0);
    betable_engine engine = opened();
    betable_fault fault;
    for (int turn = 0; turn < 20; turn++) {
        unsigned char *changes = changes_of((unsigned char)turn);
        EXPECT(betable_engine_send(&engine, BETABLE_ENGINE_APPLY, changes, CHANGES) == BETABLE_DONE);
        EXPECT(betable_engine_send(&engine, BETABLE_ENGINE_PAGE, ALL, sizeof ALL) == BETABLE_DONE);
        free(changes);
        EXPECT(betable_engine_receive(&engine, &fault) == BETABLE_DONE && betable_engine_receive(&engine, &fault) == BETABLE_DONE);
        EXPECT(has_rows_of(&engine, (unsigned char)turn));
    }
    EXPECT(betable_engine_close(&engine) == BETABLE_DONE && engine.wait_status == 0);
    setitimer(ITIMER_REAL, &never, NULL);
    EXPECT(signals > 20);
}

/* Wrong uses, requests that the engine does not take, and a caller that ignores its children. */
static void check_order(void) {
    betable_engine engine = BETABLE_ENGINE_CLOSED;
    betable_fault fault = {9, 9, 9};
    betable_reason reason;
    betable_reply_place place;
    size_t length = 9;
    EXPECT(betable_engine_apply(&engine, ALL, sizeof ALL, &fault) == BETABLE_NOT_OPEN && betable_engine_receive(&engine, &fault) == BETABLE_NOT_OPEN);
    EXPECT(betable_engine_explain(&engine, ALL, 0, &reason) == BETABLE_NOT_OPEN &&
           betable_engine_send(&engine, BETABLE_ENGINE_GET, ALL, 0) == BETABLE_NOT_OPEN);
    EXPECT(betable_engine_close(&engine) == BETABLE_NOT_OPEN && betable_engine_process(&engine) == 0);
    betable_engine_replies(&engine, &length);
    EXPECT(length == 0 && betable_engine_reply_count(&engine) == 0 && betable_engine_refused_count(&engine) == 0 && !betable_engine_reply(&engine, 0, &place));
    options.most_frame = 60;
    engine = opened();
    options.most_frame = 0;
    EXPECT(betable_engine_open(&engine, &options) == BETABLE_ALREADY_OPEN);
    EXPECT(run(&engine, "batch\nput 1,0a\nend\nget 1\n") == BETABLE_DONE);
    /* A request that is too long is passed over, and the next one is not. */
    unsigned char *changes = changes_of(1);
    EXPECT(betable_engine_apply(&engine, changes, CHANGES, &fault) == BETABLE_ENGINE_INVALID);
    free(changes);
    const char *name = (const char *)betable_engine_replies(&engine, &length);
    EXPECT(length == 7 && memcmp(name, "TooLong", 7) == 0);
    EXPECT(betable_engine_send(&engine, (betable_engine_request)12, ALL, sizeof ALL) == BETABLE_DONE);
    EXPECT(betable_engine_receive(&engine, &fault) == BETABLE_ENGINE_INVALID);
    name = (const char *)betable_engine_replies(&engine, &length);
    EXPECT(length == 11 && memcmp(name, "UnknownKind", 11) == 0);
    EXPECT(fault.refusal == 9 && fault.item == 9 && fault.column == 9);
    /* Nothing else is called while a reply is due. */
    EXPECT(betable_engine_send(&engine, BETABLE_ENGINE_SCRIPT, (const unsigned char *)"get 1\nget x\n", 12) == BETABLE_DONE);
    EXPECT(run(&engine, "batch\ndel 1\nend\n") == BETABLE_ENGINE_OUT_OF_ORDER);
    EXPECT(betable_engine_explain(&engine, (const unsigned char *)"get x\n", 6, &reason) == BETABLE_ENGINE_OUT_OF_ORDER);
    EXPECT(betable_engine_receive(&engine, &fault) == BETABLE_DONE && betable_engine_refused_count(&engine) == 1);
    name = (const char *)betable_engine_replies(&engine, &length);
    EXPECT(length == 30 && memcmp(name, "row 1,0a\nrefused 6 BadField 1\n", length) == 0);
    EXPECT(betable_engine_explain(&engine, (const unsigned char *)"get x\n", 6, &reason) == BETABLE_REFUSED);
    EXPECT(reason.refusal == 6 && reason.item == 1 && reason.field == 1 && reason.problem == BETABLE_NO_INT);
    EXPECT(betable_engine_explain(&engine, (const unsigned char *)"get 1\n", 6, &reason) == BETABLE_DONE);
    EXPECT(betable_engine_replies(&engine, &length) == (const unsigned char *)name && length == 30 && betable_engine_refused_count(&engine) == 1);
    EXPECT(betable_engine_reply(&engine, 1, &place) && place.offset == 9 && place.kind == BETABLE_COMMAND_REFUSED);
    EXPECT(betable_engine_close(&engine) == BETABLE_DONE && engine.wait_status == 0);
    signal(SIGCHLD, SIG_IGN);
    engine = opened();
    kill(betable_engine_process(&engine), SIGKILL);
    EXPECT(run(&engine, "get 1\n") == BETABLE_ENGINE_ENDED && engine.wait_status == -1);
    EXPECT(betable_engine_close(&engine) == BETABLE_DONE);
}

/* Prints the id of the process, after requests whose replies no one reads, and waits. */
static void stay(bool is_busy) {
    betable_engine engine = opened();
    for (int turn = 0; is_busy && turn < 8; turn++) {
        unsigned char *changes = changes_of(1);
        betable_engine_send(&engine, BETABLE_ENGINE_APPLY, changes, CHANGES);
        betable_engine_send(&engine, BETABLE_ENGINE_PAGE, ALL, sizeof ALL);
        free(changes);
    }
    printf("%d\n", (int)betable_engine_process(&engine));
    fflush(stdout);
    pause();
}

static void print_open(void) {
    betable_engine engine = BETABLE_ENGINE_CLOSED;
    betable_engine_status status = betable_engine_open(&engine, &options);
    printf("%d %d\n", status, engine.wait_status);
    EXPECT((engine.at != NULL) == (status == BETABLE_DONE));
    betable_engine_close(&engine);
    EXPECT(waitpid(-1, NULL, WNOHANG) == -1 && errno == ECHILD);
}

static void print_replies(char **calls) {
    betable_engine engine = BETABLE_ENGINE_CLOSED;
    printf("%d", betable_engine_open(&engine, &options));
    for (; *calls != NULL; calls++) {
        static const char *const CALLS[] = {"run", "check", "explain", "apply", "get", "send", "receive"};
        size_t call = 0, length;
        while (strcmp(*calls, CALLS[call]) != 0) {
            call++;
        }
        betable_fault fault = {0, 0, 0};
        betable_reason reason = {0, 0, 0, 0};
        betable_engine_status status = call == 0   ? betable_engine_run(&engine, ALL, 4)
                                       : call == 1 ? betable_engine_check(&engine, ALL, 4)
                                       : call == 2 ? betable_engine_explain(&engine, ALL, 4, &reason)
                                       : call == 3 ? betable_engine_apply(&engine, ALL, 4, &fault)
                                       : call == 4 ? betable_engine_get(&engine, ALL, 4, &fault)
                                       : call == 5 ? betable_engine_send(&engine, BETABLE_ENGINE_GET, ALL, 4)
                                                   : betable_engine_receive(&engine, &fault);
        betable_engine_replies(&engine, &length);
        printf(", %s %d", *calls, status);
        if (status == BETABLE_REFUSED && call == 2) {
            printf(" (%" PRIu64 " %" PRIu64 " %" PRIu64 " %" PRIu32 ")", reason.refusal, reason.item, reason.field, reason.problem);
        } else if (status == BETABLE_REFUSED) {
            printf(" (%" PRIu64 " %" PRIu64 " %" PRIu64 ")", fault.refusal, fault.item, fault.column);
        } else if (length > 0 || betable_engine_reply_count(&engine) > 0) {
            printf(" (%zu bytes, %zu of %zu refused)", length, betable_engine_refused_count(&engine), betable_engine_reply_count(&engine));
        }
    }
    printf("\n");
    betable_engine_close(&engine);
}

int main(int count, char **words) {
    static const struct {
        const char *name;
        void (*check)(void);
    } CHECKS[] = {
        {"full", check_full},   {"killed", check_killed},   {"closed", check_closed},   {"streams", check_streams}, {"interrupted", check_interrupted},
        {"order", check_order}, {"pending", check_pending}, {"missing", check_missing}, {"open", print_open},
    };
    options.program = words[2];
    if (strcmp(words[1], "replies") == 0) {
        print_replies(words + 3);
        return 0;
    }
    options.workers = count > 3 ? (unsigned)strtoul(words[3], NULL, 10) : 0;
    for (size_t place = 0; place < sizeof CHECKS / sizeof *CHECKS; place++) {
        if (strcmp(words[1], CHECKS[place].name) == 0) {
            CHECKS[place].check();
            return 0;
        }
    }
    options.cut = (unsigned)strtoul(words[4], NULL, 10);
    options.grain = (unsigned)strtoul(words[5], NULL, 10);
    options.most_frame = strtoull(words[6], NULL, 10);
    stay(strcmp(words[1], "busy") == 0);
    return 3;
}
