/* Requests for memory that are refused to the client of an engine: each one, alone and with those after it.
 *
 *     engine_refused PROGRAM
 *
 * A call returns DONE or OUT_OF_MEMORY. After a refused request for memory the engine goes on, with the table that it has, or it was killed, if a part of a
 * request was written. All memory is freed. The status is not 0 if that does not hold. Prints how many requests were refused, how many calls returned
 * OUT_OF_MEMORY, and how many of them killed the engine. */
#define _GNU_SOURCE
#include "betable_engine.h"
#include "refusals.h"

#include <errno.h>
#include <signal.h>
#include <stdio.h>
#include <stdlib.h>
#include <string.h>
#include <sys/wait.h>

#define EXPECT(what) expect(what, #what, __LINE__)

enum { TURNS = 6, LENGTH = 300000 };
static long out_of_memory = 0, killed = 0;
static betable_engine engine = BETABLE_ENGINE_CLOSED;
static unsigned char script[LENGTH];

static void expect(int is_so, const char *what, int line) {
    if (!is_so) {
        end_refusals();
        printf("line %d: not %s\n", line, what);
        exit(1);
    }
}

/* Whether a call was done. What it returned otherwise is OUT_OF_MEMORY, or ENDED after a request of which a part was written. */
static bool is_done(betable_engine_status status) {
    if (status == BETABLE_OUT_OF_MEMORY) {
        size_t length;
        betable_engine_replies(&engine, &length);
        out_of_memory++;
        EXPECT(refused > 0);
    } else {
        EXPECT(status == BETABLE_DONE || (status == BETABLE_ENGINE_ENDED && refused > 0 && WTERMSIG(engine.wait_status) == SIGKILL));
    }
    return status == BETABLE_DONE;
}

/* Large scripts that are sent ahead, with large replies, and then received. */
static void send_ahead(void) {
    betable_fault fault;
    int sent = 0, received = 0;
    for (int turn = 0; turn < TURNS; turn++) {
        sent += is_done(betable_engine_send(&engine, BETABLE_ENGINE_SCRIPT, script, LENGTH));
    }
    for (betable_engine_status status; (status = betable_engine_receive(&engine, &fault)) != BETABLE_ENGINE_OUT_OF_ORDER; received++) {
        if (is_done(status)) {
            EXPECT(betable_engine_reply_count(&engine) == LENGTH / 6 && betable_engine_refused_count(&engine) == 0);
        }
    }
    EXPECT(sent == received);
}

int main(int count, char **words) {
    static const char table[] = "table 16 64 16 1 id:int\nbatch\nput 1\nend\n";
    betable_engine_options options = {.program = words[count - 1], .workers = 1};
    for (size_t at = 0; at < LENGTH; at += 6) {
        memcpy(script + at, "get 1\n", 6);
    }
    long requests = 0;
    for (is_one = 0; is_one < 2; is_one++) {
        int was_refused = 1;
        for (long request = 0; was_refused; request++, requests++) {
            betable_reason reason;
            refuse(request);
            bool is_open = is_done(betable_engine_open(&engine, &options));
            EXPECT(is_open == (engine.at != NULL));
            if (is_open) {
                is_done(betable_engine_run(&engine, (const unsigned char *)table, sizeof table - 1));
                send_ahead();
                betable_engine_status status = betable_engine_explain(&engine, (const unsigned char *)"get x\n", 6, &reason);
                EXPECT(status == BETABLE_REFUSED ? reason.problem == BETABLE_NO_INT : !is_done(status));
                was_refused = end_refusals();
                pid_t process = betable_engine_process(&engine);
                status = betable_engine_run(&engine, (const unsigned char *)"get 1\nget 1\n", 12);
                if (process == 0) {
                    EXPECT(was_refused && status == BETABLE_ENGINE_ENDED);
                    killed++;
                } else {
                    size_t length;
                    const unsigned char *replies = betable_engine_replies(&engine, &length);
                    EXPECT(status == BETABLE_DONE && length == 12 && memcmp(replies, "row 1\nrow 1\n", length) == 0);
                }
                EXPECT(betable_engine_close(&engine) == BETABLE_DONE);
            }
            was_refused = end_refusals();
            EXPECT(blocks == 0);
            EXPECT(waitpid(-1, NULL, WNOHANG) == -1 && errno == ECHILD);
        }
    }
    printf("%ld requests, %ld out of memory, %ld killed\n", requests, out_of_memory, killed);
    return 0;
}
