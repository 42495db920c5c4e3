/* Uses a session wrongly, and checks the results. The status is the number of the first check that fails, or 0. */
#include "betable.h"

#include <string.h>

#define CHECK(number, holds) \
    do { \
        if (!(holds)) { \
            return number; \
        } \
    } while (0)

static const unsigned char TABLE[] = "table 4 3 2 1 id:int qty:int\nget x\n";

static int is_closed(betable_session *session) {
    unsigned char out[4] = "abc";
    CHECK(1, betable_run(session, TABLE, sizeof TABLE - 1) == BETABLE_NOT_OPEN);
    CHECK(2, betable_replies_length(session) == 0);
    CHECK(3, betable_copy_replies(session, 0, out, sizeof out) == 0 && strcmp((char *)out, "abc") == 0);
    CHECK(4, betable_refused_count(session) == 0 && !betable_is_lost(session));
    CHECK(5, betable_close(session) == BETABLE_NOT_OPEN && !session->is_open);
    return 0;
}

int main(void) {
    betable_session session = BETABLE_CLOSED;
    unsigned char out[64];
    CHECK(10, is_closed(&session) == 0 && session.at == NULL);
    CHECK(11, betable_open(&session) == BETABLE_DONE && betable_replies_length(&session) == 0);
    CHECK(12, betable_run(&session, TABLE, sizeof TABLE - 1) == BETABLE_DONE && betable_refused_count(&session) == 1);
    CHECK(13, betable_open(&session) == BETABLE_ALREADY_OPEN);
    size_t length = betable_replies_length(&session);
    CHECK(14, betable_copy_replies(&session, 0, out, sizeof out) == length && memcmp(out, "table 2\nrefused 6 BadField 1\n", length) == 0);
    CHECK(15, betable_copy_replies(&session, length, out, sizeof out) == 0);
    CHECK(16, betable_copy_replies(&session, (size_t)-1, out, sizeof out) == 0);
    CHECK(17, betable_copy_replies(&session, 8, out, 7) == 7 && memcmp(out, "refused", 7) == 0);
    CHECK(18, betable_copy_replies(&session, 0, out, 0) == 0);
    CHECK(19, betable_run(&session, TABLE, 0) == BETABLE_DONE && betable_replies_length(&session) == 0);
    CHECK(20, betable_refused_count(&session) == 0);
    CHECK(21, betable_close(&session) == BETABLE_DONE);
    CHECK(22, session.at == NULL && is_closed(&session) == 0);
    /* A session that is opened again has no table. */
    CHECK(23, betable_open(&session) == BETABLE_DONE);
    CHECK(24, betable_run(&session, (const unsigned char *)"get 1\n", 6) == BETABLE_DONE);
    CHECK(25, betable_copy_replies(&session, 0, out, sizeof out) > 8 && memcmp(out, "refused ", 8) == 0);
    CHECK(26, betable_close(&session) == BETABLE_DONE);
    /* The address of a session that is not open is not read. */
    session.at = (void *)1;
    CHECK(27, is_closed(&session) == 0);
    CHECK(28, betable_open(&session) == BETABLE_DONE && betable_close(&session) == BETABLE_DONE);
    return 0;
}
