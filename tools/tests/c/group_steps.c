/* Keeps groups of two batches in a table in a file, and prints `kept` after each. After a call that failed it rolls back, and prints `undone`, and makes the group
 * again, or `unknown`, with status 1.
 *
 *     group_steps PATH FIRST LAST [KILLED]
 *
 * The first three numbers are those of groups. In the group with the last one the process kills itself, before it keeps the group. */
#include "betable_file.h"

#include <signal.h>
#include <stdio.h>
#include <stdlib.h>
#include <string.h>

static betable_file file = BETABLE_FILE_CLOSED;

static betable_status run_batch(int number) {
    unsigned char request[256] = "BTF\1";
    char *script = (char *)request + 13;
    int length = 0, room = (int)sizeof request - 13;
    for (int row = 0; row < 3; row++)
        length += snprintf(script + length, (size_t)(room - length), "%sput %d,city %d,%d\n%s", row == 0 ? "batch\n" : "", 3 * number + row, number % 7, number,
                           row == 2 ? "end\n" : "");
    request[4] = (unsigned char)length;
    request[12] = 1;
    return betable_file_run(&file, request, (size_t)length + 13);
}

static betable_status keep_group(int number, int killed) {
    betable_status status = betable_file_begin(&file);
    for (int part = 0; part < 2 && status == BETABLE_DONE; part++)
        status = run_batch(2 * number + part);
    if (number == killed)
        raise(SIGKILL);
    return status == BETABLE_DONE ? betable_file_commit(&file) : status;
}

int main(int count, char **words) {
    if (count < 4)
        return 2;
    if (betable_file_open(&file, words[1]) != BETABLE_DONE)
        return 3;
    for (int number = atoi(words[2]), last = atoi(words[3]), killed = count > 4 ? atoi(words[4]) : -1; number <= last;) {
        bool is_kept = keep_group(number, killed) == BETABLE_DONE, is_known = is_kept || betable_file_roll_back(&file) == BETABLE_DONE;
        puts(is_kept ? "kept" : is_known ? "undone" : "unknown");
        fflush(stdout);
        if (!is_known)
            return 1;
        number += is_kept;
    }
    return betable_file_close(&file) == BETABLE_DONE ? 0 : 4;
}
