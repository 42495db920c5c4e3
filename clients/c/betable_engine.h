/* The engine from C: a process that keeps a table, and works on each call by several threads. docs/ENGINE.md says when to use it, and when a session of
 * betable.h. Compile betable_engine.c into your program; it needs betable.h, and not the library. Without a process, the same calls are on a table in a file:
 * see betable_engine_open_file.
 *
 *     betable_engine engine = BETABLE_ENGINE_CLOSED;
 *     betable_engine_options options = {.workers = 4};
 *     if (betable_engine_open(&engine, &options) != BETABLE_DONE) ...
 *     if (betable_engine_run(&engine, script, length) != BETABLE_DONE) ...
 *     const unsigned char *replies = betable_engine_replies(&engine, &length);
 *     betable_engine_close(&engine);
 *
 * A call has the name, the arguments and the result of the call of betable.h, with betable_engine_ for betable_. It writes a request to a pipe, and waits for
 * the reply. An engine has no lost table: if the process runs out of memory, it ends, and its table is gone with it.
 *
 * Memory: an engine that is open owns the reply to the last call, and its other buffers; betable_engine_close frees them. What you pass to a call is read
 * during the call, and not kept.
 *
 * Your obligations, which nothing checks:
 *   - An engine is BETABLE_ENGINE_CLOSED before its first use, and only these calls write to it. You may move it; use only one of two copies.
 *   - One thread at a time uses an engine. It may go to another thread between two calls, if a lock, a channel, or the start or the join of a thread orders the
 *     calls. Two threads may use two engines.
 *   - No argument is a null pointer, even if a length is 0. No call is made from a signal handler, or in a child that the process has forked.
 *
 * Processes and signals: the engine ends when the caller ends in any way, since its input ends then. So a forked child that does not start another program must
 * end, or close its copies of the pipes, before the engine can end; all other programs that the caller starts get no copy. The engine is in a process group
 * of its own, so an interrupt from the terminal reaches only the caller. No call raises SIGPIPE in the caller, and a signal that the caller handles
 * interrupts no call. */
#ifndef BETABLE_ENGINE_H
#define BETABLE_ENGINE_H

#include "betable.h"

#include <sys/types.h>

#ifdef __cplusplus
extern "C" {
#endif

/* An engine, if it is open. */
typedef struct {
    struct betable_engine_state *at;
    /* How the process ended, as waitpid says it: after ENDED, OTHER_PROGRAM and betable_engine_close. -1 if that is not known, since the caller ignores
       SIGCHLD, or has waited for the process itself. */
    int wait_status;
} betable_engine;

/* An engine that is not open. */
#define BETABLE_ENGINE_CLOSED {NULL, 0}

/* How an engine is started. What is 0 is left to the program, whose --help lists the numbers that it takes. */
typedef struct {
    /* The path of the program, or a name that is looked for in PATH. If it is NULL, the name is betable_engine. */
    const char *program;
    /* The number of threads that work; the depth at which trees are cut into jobs; the number of messages from which on a packet is divided into jobs. */
    unsigned workers, cut, grain;
    /* The most bytes of a request. */
    uint64_t most_frame;
    /* The path of a file that has the table, as docs/ENGINE.md says. If it is NULL, the table ends with the process. */
    const char *keep;
} betable_engine_options;

/* The result of a call: DONE, OUT_OF_MEMORY, NOT_OPEN, ALREADY_OPEN or REFUSED of betable_status, or one of the numbers below. Of a table in a file of this process
 * also a result of betable_file_run. After all but DONE and REFUSED, the replies are empty, except for INVALID. */
typedef int betable_engine_status;

enum {
    /* The process has ended, or was killed, before the whole reply to this request arrived: see wait_status. The table is gone, or in its file. All later
       calls return this too, except for betable_engine_receive while it has replies that arrived before. Close the engine, and open another one. */
    BETABLE_ENGINE_ENDED = 16,
    /* The engine has replied that it takes no such request, and has done nothing. The reply is a name: TooLong (more bytes than most_frame), UnknownKind (also
       for betable_engine_once without `keep`), or RequestReused. */
    BETABLE_ENGINE_INVALID = 17,
    /* betable_engine_receive was called, and no reply is due; or another call was made while replies to requests that were sent ahead are due. Nothing was
       done. */
    BETABLE_ENGINE_OUT_OF_ORDER = 18,
    /* What arrived is no reply to this request: the program is not betable_engine, or is one of another version. It was killed. */
    BETABLE_ENGINE_OTHER_PROGRAM = 19,
    /* The program could not be started: errno says why. Only betable_engine_open returns this. */
    BETABLE_ENGINE_NOT_STARTED = 20
};

/* The kinds of requests. The bytes of a script, a check and a reason are a script, and those of all others the packed bytes of the call in betable.h. */
typedef enum {
    BETABLE_ENGINE_SCRIPT = 1,
    BETABLE_ENGINE_CHECK = 2,
    BETABLE_ENGINE_APPLY = 3,
    BETABLE_ENGINE_GET = 4,
    BETABLE_ENGINE_PAGE = 5,
    BETABLE_ENGINE_LAST_PAGE = 6,
    BETABLE_ENGINE_SUMS = 7,
    BETABLE_ENGINE_COLUMNS = 8,
    BETABLE_ENGINE_USAGE = 9,
    BETABLE_ENGINE_TREES = 10,
    BETABLE_ENGINE_EXPLAIN = 11
} betable_engine_request;

/* Starts the program, and waits for its first reply. The engine has no table. DONE, OUT_OF_MEMORY, ALREADY_OPEN, NOT_STARTED, ENDED (for example by status 2,
 * if it does not take a number of the options; it says so on standard error), or OTHER_PROGRAM. After all but DONE and ALREADY_OPEN the engine is not open, and
 * nothing of it is left. */
betable_engine_status betable_engine_open(betable_engine *engine, const betable_engine_options *options) BETABLE_NOT_NULL;

/* Opens a table in a file in this process, by betable_file_open, whose results it has too. The calls below work on the thread of the caller, and their changes are
 * on the disk when they return. Requests that are sent ahead are carried out together, with one sync, at the next betable_engine_receive or betable_engine_close.
 * It is in betable_engine_file.c: compile that too, and link the library. A child that the process has forked cannot use it, and may close its copy. */
betable_engine_status betable_engine_open_file(betable_engine *engine, const char *path) BETABLE_NOT_NULL;

/* Replaces the requests in the file of betable_engine_open_file by the state: see betable_file_checkpoint. NOT_KEPT for a process, which makes its checkpoints by
 * itself. */
betable_engine_status betable_engine_checkpoint(betable_engine *engine) BETABLE_NOT_NULL;

/* The calls of betable.h. Each returns DONE, REFUSED (as there), OUT_OF_MEMORY, NOT_OPEN, ENDED, INVALID, OUT_OF_ORDER or OTHER_PROGRAM. OUT_OF_MEMORY: this
 * process has no memory for the reply; the engine has carried out the request, and goes on. */
betable_engine_status betable_engine_run(betable_engine *engine, const unsigned char *script, size_t length) BETABLE_NOT_NULL;
betable_engine_status betable_engine_check(betable_engine *engine, const unsigned char *script, size_t length) BETABLE_NOT_NULL;
betable_engine_status betable_engine_explain(betable_engine *engine, const unsigned char *script, size_t length, betable_reason *reason) BETABLE_NOT_NULL;
betable_engine_status betable_engine_apply(betable_engine *engine, const unsigned char *changes, size_t length, betable_fault *fault) BETABLE_NOT_NULL;
betable_engine_status betable_engine_get(betable_engine *engine, const unsigned char *key, size_t length, betable_fault *fault) BETABLE_NOT_NULL;
betable_engine_status betable_engine_page(betable_engine *engine, const unsigned char *page, size_t length, betable_fault *fault) BETABLE_NOT_NULL;
betable_engine_status betable_engine_last_page(betable_engine *engine, const unsigned char *page, size_t length, betable_fault *fault) BETABLE_NOT_NULL;
betable_engine_status betable_engine_sums(betable_engine *engine, const unsigned char *sums, size_t length, betable_fault *fault) BETABLE_NOT_NULL;
betable_engine_status betable_engine_columns(betable_engine *engine, const unsigned char *name, size_t length, betable_fault *fault) BETABLE_NOT_NULL;
betable_engine_status betable_engine_usage(betable_engine *engine, const unsigned char *name, size_t length, betable_fault *fault) BETABLE_NOT_NULL;
betable_engine_status betable_engine_trees(betable_engine *engine, const unsigned char *request, size_t length, betable_fault *fault) BETABLE_NOT_NULL;

/* The number of bytes of the id of a request. */
#define BETABLE_ENGINE_ID 16

/* Makes a request that runs once, with an id of sixteen bytes that no other request has, such as a random one. If a request with the id ran before, nothing runs,
 * and the result and the reply are those of the first time, also if the engine ended since and was opened again. So make a request again if its reply did not
 * arrive. The last 100,000 requests are known. The table has to be in a file. The result is that of the call of this kind; or INVALID, with the reply
 * RequestReused, if another request had the id. */
betable_engine_status betable_engine_once(
    betable_engine *engine, const unsigned char *id, betable_engine_request kind, const unsigned char *bytes, size_t length, betable_fault *fault) BETABLE_NOT_NULL;

/* Sends a request ahead: writes it, and does not wait for its reply. Requests are carried out in the order in which they are sent. If the engine waits until
 * its replies are read, they are read into memory of this process meanwhile, so any number of requests may be sent ahead. The replies to the last call are
 * kept. DONE, OUT_OF_MEMORY, NOT_OPEN or ENDED. After OUT_OF_MEMORY the request was not sent; if a part of it was written, the engine was killed, and later
 * calls return ENDED. */
betable_engine_status betable_engine_send(betable_engine *engine, betable_engine_request kind, const unsigned char *bytes, size_t length) BETABLE_NOT_NULL;

/* Waits for the reply to the first request that was sent ahead and has no reply yet, and returns what the call of this request would have returned. The reply
 * to a request for a reason is empty, or the four numbers of a betable_reason, each in eight bytes. */
betable_engine_status betable_engine_receive(betable_engine *engine, betable_fault *fault) BETABLE_NOT_NULL;

/* The replies of the last call, and the number of their bytes: see betable_replies_length. They are kept until the next call that changes them: not by
 * betable_engine_explain and betable_engine_send. */
const unsigned char *betable_engine_replies(const betable_engine *engine, size_t *length) BETABLE_NOT_NULL;

/* betable_refused_count, betable_reply_count and betable_reply of betable.h. */
size_t betable_engine_refused_count(const betable_engine *engine) BETABLE_NOT_NULL;
size_t betable_engine_reply_count(const betable_engine *engine) BETABLE_NOT_NULL;
bool betable_engine_reply(const betable_engine *engine, size_t place, betable_reply_place *reply) BETABLE_NOT_NULL;

/* The id of the process, or 0 if it is not open, or is known to have ended. */
pid_t betable_engine_process(const betable_engine *engine) BETABLE_NOT_NULL;

/* Ends the input of the engine, waits until it has carried out what was sent and has ended, and frees the memory of this engine. DONE or NOT_OPEN. */
betable_engine_status betable_engine_close(betable_engine *engine) BETABLE_NOT_NULL;

#ifdef __cplusplus
}
#endif

#endif
