/* What an engine over a file has besides the calls of a session. It is linked with betable_file.c by -Wl,--wrap, so that some calls of the system are interrupted,
 * or write only a part.
 *
 *     engine_file PROGRAM PATH
 *
 * The status is 1, and a line says where, if something does not hold. */
#define _GNU_SOURCE
#include "betable_engine.h"

#include <errno.h>
#include <fcntl.h>
#include <signal.h>
#include <stdarg.h>
#include <stdio.h>
#include <stdlib.h>
#include <string.h>
#include <sys/file.h>
#include <sys/resource.h>
#include <unistd.h>

static betable_engine engine = BETABLE_ENGINE_CLOSED;
static betable_fault fault;

#define EXPECT(what) expect(what, #what, __LINE__)

static void expect(bool is_so, const char *what, int line) {
    if (!is_so) {
        printf("line %d: not %s\n", line, what);
        exit(1);
    }
}

/* ---- calls of the system ---- */

static unsigned calls = 0;
static const char *replaced = NULL, *other = NULL; /* a file that another one takes the place of, before it is locked */

int __real_open(const char *path, int flags, ...);
int __real_fsync(int file);
int __real_fdatasync(int file);
int __real_ftruncate(int file, off_t length);
ssize_t __real_pwrite(int file, const void *bytes, size_t length, off_t at);
int __real_flock(int file, int how);

static bool is_interrupted(void) {
    errno = EINTR;
    return calls++ % 3 == 0;
}

int __wrap_open(const char *path, int flags, ...) {
    va_list rest;
    va_start(rest, flags);
    mode_t mode = va_arg(rest, mode_t);
    va_end(rest);
    return is_interrupted() ? -1 : __real_open(path, flags, mode);
}

int __wrap_fsync(int file) { return is_interrupted() ? -1 : __real_fsync(file); }

int __wrap_fdatasync(int file) { return is_interrupted() ? -1 : __real_fdatasync(file); }

int __wrap_ftruncate(int file, off_t length) { return is_interrupted() ? -1 : __real_ftruncate(file, length); }

ssize_t __wrap_pwrite(int file, const void *bytes, size_t length, off_t at) {
    return is_interrupted() ? -1 : __real_pwrite(file, bytes, length > 1 ? length - length / 3 : length, at);
}

int __wrap_flock(int file, int how) {
    if (replaced != NULL)
        rename(other, replaced);
    replaced = NULL;
    return __real_flock(file, how);
}

/* ---- calls of the engine ---- */

static betable_engine_status run(const char *script) { return betable_engine_run(&engine, (const unsigned char *)script, strlen(script)); }

static betable_engine_status sent(const char *script) {
    return betable_engine_send(&engine, BETABLE_ENGINE_SCRIPT, (const unsigned char *)script, strlen(script));
}

static bool replies(const char *wanted) {
    size_t length;
    const unsigned char *found = betable_engine_replies(&engine, &length);
    return length == strlen(wanted) && memcmp(found, wanted, length) == 0;
}

static void check_order(const char *path) {
    betable_engine second = BETABLE_ENGINE_CLOSED;
    betable_reason reason;
    EXPECT(betable_engine_checkpoint(&engine) == BETABLE_NOT_OPEN);
    EXPECT(betable_engine_open_file(&engine, path) == BETABLE_DONE && betable_engine_process(&engine) == 0);
    EXPECT(betable_engine_open_file(&engine, path) == BETABLE_ALREADY_OPEN);
    EXPECT(betable_engine_open_file(&second, path) == BETABLE_FILE_IN_USE && second.at == NULL);
    EXPECT(run("table 4 8 4 1 id:int qty:int\n") == BETABLE_DONE && replies("table 2\n") && betable_engine_reply_count(&engine) == 1);
    EXPECT(betable_engine_explain(&engine, (const unsigned char *)"get x\n", 6, &reason) == BETABLE_REFUSED && reason.problem == BETABLE_NO_INT);
    EXPECT(replies("table 2\n"));
    EXPECT(betable_engine_checkpoint(&engine) == BETABLE_DONE && replies(""));
    EXPECT(sent("batch\nput 1,10\nend\n") == BETABLE_DONE && sent("get x\n") == BETABLE_DONE && sent("get 1\n") == BETABLE_DONE);
    EXPECT(run("get 1\n") == BETABLE_ENGINE_OUT_OF_ORDER && betable_engine_checkpoint(&engine) == BETABLE_ENGINE_OUT_OF_ORDER);
    EXPECT(betable_engine_receive(&engine, &fault) == BETABLE_DONE && replies("batch 1\n"));
    /* What is sent now is carried out after the replies to what was sent before are received. */
    EXPECT(sent("batch\nput 2,20\nend\nget 2\n") == BETABLE_DONE);
    EXPECT(betable_engine_receive(&engine, &fault) == BETABLE_DONE && replies("refused 6 BadField 1\n") && betable_engine_refused_count(&engine) == 1);
    EXPECT(betable_engine_receive(&engine, &fault) == BETABLE_DONE && replies("row 1,10\n"));
    EXPECT(betable_engine_receive(&engine, &fault) == BETABLE_DONE && replies("batch 1\nrow 2,20\n"));
    EXPECT(betable_engine_receive(&engine, &fault) == BETABLE_ENGINE_OUT_OF_ORDER);
    /* A close carries out what was sent. */
    EXPECT(sent("batch\nput 3,30\nend\n") == BETABLE_DONE && sent("batch\nput 4,40\nend\n") == BETABLE_DONE);
    EXPECT(betable_engine_close(&engine) == BETABLE_DONE && betable_engine_close(&engine) == BETABLE_NOT_OPEN);
    EXPECT(betable_engine_open_file(&engine, path) == BETABLE_DONE);
    EXPECT(run("get 3\nget 4\n") == BETABLE_DONE && replies("row 3,30\nrow 4,40\n"));
}

/* The system refuses to write past some end of the file. */
static void check_faults(const char *path) {
    static char script[600000];
    struct rlimit before, limit;
    signal(SIGXFSZ, SIG_IGN);
    getrlimit(RLIMIT_FSIZE, &before);
    limit = (struct rlimit){400000, before.rlim_max};
    setrlimit(RLIMIT_FSIZE, &limit);
    memset(script, '\n', sizeof script);
    memcpy(script, "batch\nput 5,50\nend\n", 19);
    EXPECT(sent("batch\nput 6,60\nend\n") == BETABLE_DONE);
    EXPECT(betable_engine_send(&engine, BETABLE_ENGINE_SCRIPT, (unsigned char *)script, sizeof script) == BETABLE_DONE);
    errno = 0;
    EXPECT(betable_engine_receive(&engine, &fault) == BETABLE_FILE_FAILED && errno == EFBIG && replies(""));
    EXPECT(betable_engine_receive(&engine, &fault) == BETABLE_NOT_KEPT && betable_engine_receive(&engine, &fault) == BETABLE_ENGINE_OUT_OF_ORDER);
    EXPECT(run("get 1\n") == BETABLE_NOT_KEPT && replies("") && betable_engine_checkpoint(&engine) == BETABLE_NOT_KEPT);
    EXPECT(betable_engine_close(&engine) == BETABLE_DONE);
    setrlimit(RLIMIT_FSIZE, &before);
    EXPECT(betable_engine_open_file(&engine, path) == BETABLE_DONE);
    EXPECT(run("get 1\nget 5\nget 6\n") == BETABLE_DONE && replies("row 1,10\nnone\nnone\n"));
    EXPECT(betable_engine_close(&engine) == BETABLE_DONE);
    EXPECT(betable_engine_open_file(&engine, "/nonexistent/table") == BETABLE_FILE_FAILED && errno == ENOENT && engine.at == NULL);
}

/* A file that has lost its name when it is locked is not that of the path. */
static void check_lost_name(const char *path) {
    char name[4096];
    snprintf(name, sizeof name, "%s.other", path);
    FILE *made = fopen(name, "w");
    EXPECT(made != NULL && fclose(made) == 0);
    replaced = path;
    other = name;
    EXPECT(betable_engine_open_file(&engine, path) == BETABLE_FILE_IN_USE && engine.at == NULL && replaced == NULL);
    EXPECT(betable_engine_open_file(&engine, path) == BETABLE_DONE && run("get 1\n") == BETABLE_DONE && replies("refused 3 NoTable\n"));
    EXPECT(betable_engine_close(&engine) == BETABLE_DONE);
}

int main(int count, char **words) {
    if (count != 3)
        return 2;
    betable_engine_options options = {.program = words[1], .workers = 1};
    check_order(words[2]);
    check_faults(words[2]);
    check_lost_name(words[2]);
    EXPECT(betable_engine_open(&engine, &options) == BETABLE_DONE && betable_engine_checkpoint(&engine) == BETABLE_NOT_KEPT);
    EXPECT(betable_engine_close(&engine) == BETABLE_DONE);
    return 0;
}
