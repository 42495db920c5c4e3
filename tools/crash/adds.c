/* A client of tools/crash/engine: makes the requests of two numbers and those between them, each once, and prints each number after its reply.
 *
 *     adds engine | file PATH FIRST LAST
 *
 * With `file` the table is in this process, which keeps some of the requests in groups, undoes others before it makes them, and makes a checkpoint after some. */
#include "betable_engine.h"
#include "betable_file.h"
#include <stdio.h>
#include <stdlib.h>
#include <string.h>
#include <unistd.h>

static betable_file file = BETABLE_FILE_CLOSED;
static betable_engine engine = BETABLE_ENGINE_CLOSED;

static void print(long long number) {
    printf("%lld\n", number);
    fflush(stdout);
}

static void put_number(unsigned char *bytes, unsigned long long number) {
    for (int place = 0; place < 8; place++)
        bytes[place] = (unsigned char)(number >> 8 * place & 255);
}

static int put_script(char *script, size_t room, long long number) { return snprintf(script, room, "batch\nups 1,add,qty,%lld\nend\n", number); }

/* Makes a request in this process: once, if its id is not 0. */
static betable_status run(long long id, long long number) {
    unsigned char request[128] = "BTF\1";
    size_t script = id == 0 ? 13 : 13 + BETABLE_ENGINE_ID + 1;
    size_t length = script + (size_t)put_script((char *)request + script, sizeof request - script, number);
    put_number(request + 4, length - 13);
    request[12] = id == 0 ? 1 : 12;
    if (id != 0) {
        put_number(request + 13, (unsigned long long)id);
        request[script - 1] = 1;
    }
    return betable_file_run(&file, request, length);
}

/* Makes the requests of a number and of others up to a last one, in a group. */
static betable_status run_group(long long first, long long last) {
    betable_status status = betable_file_begin(&file);
    for (long long number = first; number <= last && status == BETABLE_DONE; number++)
        status = run(number, number);
    return status == BETABLE_DONE ? betable_file_commit(&file) : status;
}

/* A group that is undone. */
static betable_status run_none(long long number) {
    betable_status status = betable_file_begin(&file);
    if (status == BETABLE_DONE)
        status = run(0, number);
    if (status == BETABLE_DONE)
        status = run(number, number);
    return status == BETABLE_DONE ? betable_file_roll_back(&file) : status;
}

static betable_status add_in_file(long long first, long long last) {
    betable_status status = BETABLE_DONE;
    for (long long number = first, end; number <= last && status == BETABLE_DONE; number = end + 1) {
        end = number % 10 == 0 && number + 4 <= last ? number + 4 : number;
        if (number % 17 == 0)
            status = run_none(number);
        if (status == BETABLE_DONE)
            status = end > number ? run_group(number, end) : run(number, number);
        for (; number <= end && status == BETABLE_DONE; number++)
            print(number);
        if (status == BETABLE_DONE && end % 50 == 4)
            status = betable_file_checkpoint(&file);
    }
    return status;
}

static betable_engine_status add_by_engine(long long first, long long last) {
    betable_engine_status status = BETABLE_DONE;
    for (long long number = first; number <= last && status == BETABLE_DONE; number++) {
        char script[64];
        unsigned char id[BETABLE_ENGINE_ID] = {0};
        betable_fault fault;
        int length = put_script(script, sizeof script, number);
        put_number(id, (unsigned long long)number);
        status = betable_engine_once(&engine, id, BETABLE_ENGINE_SCRIPT, (const unsigned char *)script, (size_t)length, &fault);
        if (status == BETABLE_DONE)
            print(number);
    }
    return status;
}

int main(int count, char **words) {
    if (count != 5)
        return 2;
    bool is_here = strcmp(words[1], "file") == 0;
    betable_engine_options options = {.workers = 2, .keep = words[2]};
    if ((is_here ? (int)betable_file_open(&file, words[2]) : betable_engine_open(&engine, &options)) != BETABLE_DONE)
        return 1;
    print(is_here ? getpid() : betable_engine_process(&engine));
    long long first = atoll(words[3]), last = atoll(words[4]);
    int status = is_here ? (int)add_in_file(first, last) : add_by_engine(first, last);
    betable_file_close(&file);
    betable_engine_close(&engine);
    return status == BETABLE_DONE ? 0 : 1;
}
