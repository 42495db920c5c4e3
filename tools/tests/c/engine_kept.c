/* Opens the engine of the first word over the file of the second one, runs the third one as a script, once if a fourth word of sixteen letters is its id, and prints the
 * replies. */
#include "betable_engine.h"
#include <stdio.h>
#include <string.h>

int main(int count, char **words) {
    if (count != 4 && count != 5)
        return 2;
    betable_engine engine = BETABLE_ENGINE_CLOSED;
    betable_engine_options options = {.program = words[1], .workers = 2, .keep = words[2]};
    betable_fault fault;
    const unsigned char *script = (const unsigned char *)words[3];
    size_t length = strlen(words[3]);
    betable_engine_status status = betable_engine_open(&engine, &options);
    if (status == BETABLE_DONE && count == 4)
        status = betable_engine_run(&engine, script, length);
    else if (status == BETABLE_DONE)
        status = betable_engine_once(&engine, (const unsigned char *)words[4], BETABLE_ENGINE_SCRIPT, script, length, &fault);
    const unsigned char *replies = betable_engine_replies(&engine, &length);
    fwrite(replies, 1, length, stdout);
    betable_engine_close(&engine);
    return status == BETABLE_DONE ? 0 : 1;
}
