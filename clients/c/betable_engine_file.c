/* An engine without a program: its table is in a file that this process has opened. */
#include "betable_engine_local.h"
#include "betable_file.h"

static betable_engine_status run(void *table, const unsigned char *requests, size_t length) {
    betable_file file = {table};
    return (betable_engine_status)betable_file_run(&file, requests, length);
}

static size_t copy_replies(void *table, size_t from, unsigned char *out, size_t room) {
    betable_file file = {table};
    return betable_file_copy_replies(&file, from, out, room);
}

static betable_engine_status checkpoint(void *table) {
    betable_file file = {table};
    return (betable_engine_status)betable_file_checkpoint(&file);
}

static void close_file(void *table) {
    betable_file file = {table};
    betable_file_close(&file);
}

betable_engine_status betable_engine_open_file(betable_engine *engine, const char *path) {
    static const betable_engine_local calls = {run, copy_replies, checkpoint, close_file};
    betable_file file = BETABLE_FILE_CLOSED;
    if (engine->at != NULL)
        return BETABLE_ALREADY_OPEN;
    betable_engine_status status = (betable_engine_status)betable_file_open(&file, path);
    if (status != BETABLE_DONE)
        return status;
    status = betable_engine_open_local(engine, &calls, file.at);
    if (status != BETABLE_DONE)
        close_file(file.at);
    return status;
}
