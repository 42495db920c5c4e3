/* What betable_engine.c and betable_engine_file.c share: what carries out requests in this process, in place of a program. */
#ifndef BETABLE_ENGINE_LOCAL_H
#define BETABLE_ENGINE_LOCAL_H

#include "betable_engine.h"

/* Calls on a table. Requests and replies are frames. */
typedef struct {
    betable_engine_status (*run)(void *table, const unsigned char *requests, size_t length);
    /* Copies bytes of the replies to the last run, as betable_copy_replies does. */
    size_t (*copy_replies)(void *table, size_t from, unsigned char *out, size_t room);
    betable_engine_status (*checkpoint)(void *table);
    void (*close)(void *table);
} betable_engine_local;

/* Opens an engine that makes these calls, and closes the table with the engine. DONE or OUT_OF_MEMORY. */
betable_engine_status betable_engine_open_local(betable_engine *engine, const betable_engine_local *calls, void *table);

#endif
