/* betable from C: a table that lives between scripts. `bin/build_c` builds the library as libbt_c.a and libbt_c.so.
 *
 *     betable_session session = BETABLE_CLOSED;
 *     unsigned char replies[4096];
 *     if (betable_open(&session) != BETABLE_DONE) ...
 *     if (betable_run(&session, script, length) != BETABLE_DONE) ...
 *     size_t count = betable_copy_replies(&session, 0, replies, sizeof replies);
 *     betable_close(&session);
 *
 * A script is any number of bytes, as docs/SCRIPT.md says. They are read during the call and not kept. The runs of two scripts, one after the other, are the
 * run of both as one script, if the first ends between two commands: with a line feed, and outside of a block. A block that the end of a script cuts off is
 * refused as 2 Unfinished; the next script does not continue it.
 *
 * Your obligations, which nothing checks:
 *   - The session is BETABLE_CLOSED before its first use, and only these calls write it. You may move it, but it has one owner: after a copy, you may use
 *     either the copy or the original, not both.
 *   - One call at a time uses a session. A session may go from one thread to another between two calls, if a lock, a channel, or the start or the join of a
 *     thread orders the calls; no two threads use it at the same time. Sessions are independent: two threads may use two sessions.
 *   - No argument is a null pointer, even if a length is 0. A script and the session, or a buffer and the session, do not overlap.
 *   - malloc, realloc and free are those of one allocator, which aligns blocks as the C standard says. No call is made from a signal handler, or in a child
 *     that a process with threads has forked.
 */
#ifndef BETABLE_H
#define BETABLE_H

#include <stdbool.h>
#include <stddef.h>
#include <stdint.h>

#ifdef __GNUC__
#define BETABLE_NOT_NULL __attribute__((nonnull))
#else
#define BETABLE_NOT_NULL
#endif

#ifdef __cplusplus
extern "C" {
#endif

/* A session, if it is open. */
typedef struct {
    void *at;
    bool is_open;
} betable_session;

/* A session that is not open. */
#define BETABLE_CLOSED {NULL, false}

/* The result of a call. */
typedef enum {
    /* The call did all that was asked. A refused command has its reply too: see betable_refused_count. */
    BETABLE_DONE = 0,
    /* An allocation failed. After a run, the whole replies to the first n commands are kept, and the table is the one after n commands, the one after n + 1,
       or lost: see betable_is_lost. No further command was carried out. You can go on using the session. */
    BETABLE_OUT_OF_MEMORY = 1,
    /* An allocation failed while a reply was added to the others. The table is the one after n + 1 commands. The whole replies to the first n are kept, and
       the first bytes of the next one, if any. No further command was carried out. */
    BETABLE_REPLY_CUT = 2,
    /* The session is not open. Nothing was done, and its address was not read. */
    BETABLE_NOT_OPEN = 3,
    /* The session is open already. Nothing was done. */
    BETABLE_ALREADY_OPEN = 4,
    /* A call on packed bytes was refused, and nothing has changed. Its fault says why. Or betable_explain has found a reason. Or the requests of a group are not
       whole frames. */
    BETABLE_REFUSED = 5,
    /* The session has no table in a file: betable_keep_end_of_file has opened none, or an earlier call of it failed. Or a call is for a group, and none is open, or
       not for a group, and one is. Nothing was done. */
    BETABLE_NOT_KEPT = 6,
    /* The file, or the requests, are too long: 2^62 bytes. */
    BETABLE_FILE_TOO_LONG = 7,
    /* The file does not begin with the head of a table. */
    BETABLE_NOT_A_TABLE = 8,
    /* The file has another format. */
    BETABLE_OTHER_FORMAT = 9,
    /* Another engine wrote the file. */
    BETABLE_OTHER_ENGINE = 10,
    /* The file is damaged. */
    BETABLE_DAMAGED = 11,
    /* Of the calls of betable_file.h: a call of the system failed, and errno says why. */
    BETABLE_FILE_FAILED = 12,
    /* Of the calls of betable_file.h: the file is open already, in this process or another one. */
    BETABLE_FILE_IN_USE = 13
} betable_status;

/* Why a call on packed bytes was refused, and where. Written if the result is REFUSED. */
typedef struct {
    /* The number of the refusal, as docs/SCRIPT.md lists them. 1 (Syntax): the bytes do not begin with the letters BTV, the version, 1, and four bytes more.
       6 (BadField): the bytes of the item are none of its layout. 3 (NoTable): there is no table. */
    uint64_t refusal;
    /* The item, counted from 1: a change, the key, or 1 for the lower bound of a page and 2 for the upper one. 0 if it is none of them. */
    uint64_t item;
    /* The column of the value or the operation at fault, counted from 1. 0 if it is none. */
    uint64_t column;
} betable_fault;

/* What is wrong with a field, or with a record as a whole. */
typedef enum {
    BETABLE_FIELD_COUNT = 1,   /* The number of fields is wrong. */
    BETABLE_NO_INT = 2,        /* An int is digits, after a '-' if it is negative, and this field is not. */
    BETABLE_INT_RANGE = 3,     /* An int has more than 64 bits. */
    BETABLE_TOO_LONG = 4,      /* A text, or bytes, are longer than 255 bytes. */
    BETABLE_NO_TEXT = 5,       /* A text is not UTF-8. */
    BETABLE_NO_FLAG = 6,       /* A flag is neither 'true' nor 'false'. */
    BETABLE_NO_HEX = 7,        /* A letter of bytes is no hexadecimal digit. */
    BETABLE_ODD_DIGITS = 8,    /* Bytes have an odd number of hexadecimal digits. */
    BETABLE_NO_OPERATION = 9,  /* The word of an operation is unknown. */
    BETABLE_NO_COLUMN = 10,    /* No column has this name. */
    BETABLE_KEY_COLUMN = 11,   /* The column is one of the key, which no operation changes. */
    BETABLE_NO_INT_COLUMN = 12, /* The operation is one for ints, and the column has another kind. */
    BETABLE_MANY_MESSAGES = 13, /* The batch has more messages than a batch may have; the item is the first one over the limit. */
    BETABLE_SECOND_MARK = 14,  /* The text of a load begins with two byte order marks. */
    BETABLE_NO_HEADER = 15,    /* The text of a load has no record, and so no header. */
    BETABLE_OTHER_NAME = 16    /* A field of the header of a load is not the name of its column. */
} betable_problem;

/* Why a command is refused because of its records. Written if the result of betable_explain is REFUSED. */
typedef struct {
    /* The number of the refusal, as docs/SCRIPT.md lists them. */
    uint64_t refusal;
    /* The item at fault, counted from 1: a line of a batch, a record of a load after its header, 1 for the key of a get or the lower bound of a range, and 2 for
       the upper bound. 0 for the header of a load. */
    uint64_t item;
    /* The field of the item at fault, counted from 1; of an upsert the key columns come first and then three fields for each operation. 0 if it is no single
       one. */
    uint64_t field;
    /* What is wrong with it: a betable_problem. */
    uint32_t problem;
} betable_reason;

/* What a command of a script did, or what it would do, after betable_check. */
typedef enum {
    /* It was carried out, and is one that reads: get, scan, sums or image. */
    BETABLE_READ = 0,
    /* It was carried out, and is one that can change the table. */
    BETABLE_CHANGED = 1,
    /* It was refused, and changed nothing. */
    BETABLE_COMMAND_REFUSED = 2
} betable_reply_kind;

/* Where a reply is among those of a script. */
typedef struct {
    /* The place of its first byte, counted from 0, and the number of its bytes. */
    uint64_t offset;
    uint64_t length;
    /* What its command did, or would do: a betable_reply_kind. */
    uint32_t kind;
} betable_reply_place;

/* Opens a session, which has no table. DONE, OUT_OF_MEMORY or ALREADY_OPEN. */
betable_status betable_open(betable_session *session) BETABLE_NOT_NULL;

/* Carries out the commands of a script on the session's table. Their replies replace the previous ones. It is for a session without a file. DONE,
 * OUT_OF_MEMORY, REPLY_CUT or NOT_OPEN. */
betable_status betable_run(betable_session *session, const unsigned char *script, size_t length) BETABLE_NOT_NULL;

/* Finds which commands of a script would be refused, each by itself, on the table as it is. None is carried out, and nothing changes. So no command is judged
 * with the effects of those before it: without a table, each command except `table` would be refused. Afterwards betable_reply_count is the number of commands.
 * betable_reply has for each the kind that a run of this command alone would give it, with offset 0 and length 0. The replies are empty, and
 * betable_refused_count is 0. The rows of a load are read, sorted by key and dropped; no tree is made. The table is that in the file, if the session has one.
 * DONE, OUT_OF_MEMORY or NOT_OPEN. After OUT_OF_MEMORY betable_reply_count is 0. */
betable_status betable_check(betable_session *session, const unsigned char *script, size_t length) BETABLE_NOT_NULL;

/* Finds why the first command of a script would be refused because of its records, on the table as it is: the lines of a batch, the key of a get, the text of a
 * load, or the bounds of a scan or of sums. The command is not carried out, and the replies are kept, so you can ask directly after a run in which the command
 * was refused. If several records or fields are at fault, the reason is that of the refusal in the reply, and of these the first. The table is that in the
 * file, if the session has one. REFUSED if there is a reason, and otherwise DONE, OUT_OF_MEMORY or NOT_OPEN. */
betable_status betable_explain(betable_session *session, const unsigned char *script, size_t length, betable_reason *reason) BETABLE_NOT_NULL;

/* The calls on packed bytes do what commands do, without text in between. Packed bytes begin with the letters BTV, the version of the layout, 1, and a number of
 * four bytes. Numbers are little endian, there is no padding, and there are no pointers. A value has the kind of its column: an int is eight bytes; a text, or
 * bytes, are one byte for the length and then the bytes; a flag is one byte, 0 or 1. docs/C.md has examples.
 *
 * Their replies replace those of the last call, and are read by betable_replies_length and betable_copy_replies. They are rows: the letters BTV, the version,
 * and the values of each row, one row after another, to the end.
 *
 * All but betable_apply are questions. They ask the table in the file, if the session has one. In a group it has the changes of the group so far. */

/* Applies changes in order: all of them, or none. After the header, whose number is that of the changes, each change is
 *   - a put: 0, and the values of all columns;
 *   - a del: 1, and the values of the key columns; or
 *   - an upsert: 2, the values of the key columns, the number of operations in one byte, and each operation: 0 for set, 1 for add, 2 for max or 3 for min, the
 *     place of its column, counted from 0, in one byte, and the value to set, or the number in eight bytes.
 * There may be more changes than the 65,536 messages of a batch. The reply is empty. It is for a session without a file. DONE, OUT_OF_MEMORY, NOT_OPEN or
 * REFUSED. After OUT_OF_MEMORY the table is as it was, or lost. */
betable_status betable_apply(betable_session *session, const unsigned char *changes, size_t length, betable_fault *fault) BETABLE_NOT_NULL;

/* Replies with the row of a key, or with no row. After the header, whose number is 1, are the values of the key columns. DONE, OUT_OF_MEMORY, NOT_OPEN or
   REFUSED. */
betable_status betable_get(betable_session *session, const unsigned char *key, size_t length, betable_fault *fault) BETABLE_NOT_NULL;

/* Replies with the first rows of a range of a tree, in ascending order of its key, at most as many as the number in the header. After the header are the name
 * of the tree, as a text, a lower bound and an upper one. A bound is
 *   - 0: there is none;
 *   - 1, a number of values in one byte, and the values of that many of the first key columns of the tree; or
 *   - 2, and the values of all key columns of the tree: the place directly after the row with this key.
 * Rows at or after the lower bound and before the upper one are in the range. The values of the key columns of a tree are the first of each of its rows, so the
 * next page begins with 2 and the first bytes of the last row. DONE, OUT_OF_MEMORY, NOT_OPEN or REFUSED. */
betable_status betable_page(betable_session *session, const unsigned char *page, size_t length, betable_fault *fault) BETABLE_NOT_NULL;

/* Replies with the last rows of a range of a tree, in descending order of its key, at most as many as the number in the header. The request is that of
   betable_page. The next page has the same lower bound; its upper one is 1, the number of the tree's key columns in one byte, and the first bytes of the last
   row of the reply: the place directly before that row. DONE, OUT_OF_MEMORY, NOT_OPEN or REFUSED. */
betable_status betable_last_page(betable_session *session, const unsigned char *page, size_t length, betable_fault *fault) BETABLE_NOT_NULL;

/* Replies with the groups of the rows of a range of a tree, in order, with the sum of an int column. The rows are grouped by the first columns of the tree's key,
   as many as the number in the header. After the header are the name of the tree and that of the summed column, as texts, and the bounds of a page. The reply
   is the letters BTV, the version, and of each group: the values of its columns, the number of its rows in eight bytes, and the sum in sixteen bytes (two's
   complement). With the number 0 all rows of the range are one group, even if there are none. If the name of the summed column is empty, no column is summed,
   and each sum is 0. So the number 0 and an empty name count the rows of a range. DONE, OUT_OF_MEMORY, NOT_OPEN or REFUSED. */
betable_status betable_sums(betable_session *session, const unsigned char *sums, size_t length, betable_fault *fault) BETABLE_NOT_NULL;

/* Replies with the columns of the rows of a tree. After the header, whose number is 1, is the name of the tree, as a text. The reply is the letters BTV, the
   version, the number of key columns in eight bytes, and each column: its kind in one byte (0 int, 1 text, 2 flag, 4 bytes) and its name, as a text. DONE,
   OUT_OF_MEMORY, NOT_OPEN or REFUSED. */
betable_status betable_columns(betable_session *session, const unsigned char *name, size_t length, betable_fault *fault) BETABLE_NOT_NULL;

/* Replies with how much a tree holds. The request is that of betable_columns. The reply is the letters BTV, the version, and three numbers of eight bytes: the
   rows in the leaves of the tree, the messages in the buffers of its inner nodes, and its height. A row can be in a buffer, as a message, and a message can
   delete a row of a leaf, so the first number is not that of the tree's rows. All nodes are read. DONE, OUT_OF_MEMORY, NOT_OPEN or REFUSED. */
betable_status betable_usage(betable_session *session, const unsigned char *name, size_t length, betable_fault *fault) BETABLE_NOT_NULL;

/* Replies with the trees of the table: that of the rows, which is called primary, and then the indexes, in the order in which they were created. The request is a
   header, whose number is 1 to reply with how much each tree holds too, which reads all nodes, and otherwise 0. The reply is the letters BTV, the version, and of
   each tree: its name, as a text; its state in one byte, 0 if it is complete and 1 if it is an index that is building; the number of its key columns and that
   of all its columns, each in eight bytes; its columns, as those of betable_columns; and, if that was requested, the three numbers of betable_usage. DONE,
   OUT_OF_MEMORY, NOT_OPEN or REFUSED. */
betable_status betable_trees(betable_session *session, const unsigned char *request, size_t length, betable_fault *fault) BETABLE_NOT_NULL;

/* The number of bytes of the replies to the last script, or to the last call on packed bytes. 0 after betable_check, and if the session is not open. */
size_t betable_replies_length(betable_session *session) BETABLE_NOT_NULL;

/* Copies the bytes of these replies from a place on, as many as there are and as fit, and returns their number. The replies are kept. */
size_t betable_copy_replies(betable_session *session, size_t from, unsigned char *out, size_t room) BETABLE_NOT_NULL;

/* The number of commands of the last script that were refused. 0 if the session is not open, after a run that was not DONE, and after betable_check. */
size_t betable_refused_count(betable_session *session) BETABLE_NOT_NULL;

/* The number of replies to the last script, or of commands that betable_check has checked: one for each command. 0 if the session is not open, after a run or a
   check that was not DONE, and after a call on packed bytes. */
size_t betable_reply_count(betable_session *session) BETABLE_NOT_NULL;

/* Tells where the reply at a place, counted from 0, is among these replies, and what its command did, or would do. False if there is none; then nothing is
   written. */
bool betable_reply(betable_session *session, size_t place, betable_reply_place *reply) BETABLE_NOT_NULL;

/* Whether the table was lost because an allocation failed while it was changed. A lost table stays lost, and each command on it except `table` has the reply
   'refused 18 Failed'. The table is that in the file, if the session has one. */
bool betable_is_lost(betable_session *session) BETABLE_NOT_NULL;

/* Closes a session and frees its memory. DONE or NOT_OPEN. */
betable_status betable_close(betable_session *session) BETABLE_NOT_NULL;

/* A table in a file. These calls say which calls of the file the host is to make, and make none themselves: betable_file.h has calls that make them. The file is
 * that of `betable_engine --keep`. It is proved that a crash loses nothing that was told, if the host makes the calls in order, makes all of them before it tells
 * a reply, and makes none after one that failed. */

/* A call of the file that the host is to make. */
typedef enum {
    BETABLE_WRITE = 0,   /* Write the bytes from an offset on. */
    BETABLE_CUT = 1,     /* Give the file another length. */
    BETABLE_REPLACE = 2, /* Write the bytes to a new file, sync it, give it the name of this one, and sync the folder. The later calls are for the new file. */
    BETABLE_SYNC = 3     /* Sync the file. */
} betable_file_call_kind;

typedef struct {
    /* What it is: a betable_file_call_kind. */
    uint32_t kind;
    /* The offset of a WRITE, or the new length of a CUT. Otherwise 0. */
    uint64_t at;
    /* The number of bytes of a WRITE or a REPLACE, which betable_copy_file_call copies. Otherwise 0. */
    uint64_t length;
} betable_file_call;

/* Opens a session for the table in a file, which the host has opened, locked and synced. Pass all bytes of the file to betable_keep_read, and then call
 * betable_keep_end_of_file. An empty file becomes one of a table; the salt of each is a random number. DONE, OUT_OF_MEMORY or ALREADY_OPEN. */
betable_status betable_keep_open(betable_session *session, uint64_t salt) BETABLE_NOT_NULL;

/* Adds the next bytes of the file, as many as you like, and carries out the requests in them. DONE, OUT_OF_MEMORY, NOT_OPEN, NOT_KEPT, FILE_TOO_LONG, NOT_A_TABLE,
 * OTHER_FORMAT or OTHER_ENGINE. After all but DONE close the session. */
betable_status betable_keep_read(betable_session *session, const unsigned char *piece, size_t length) BETABLE_NOT_NULL;

/* Opens the table, once all bytes of the file were passed. After DONE make the calls of the file. DONE, OUT_OF_MEMORY, NOT_OPEN, NOT_KEPT, FILE_TOO_LONG,
 * NOT_A_TABLE or DAMAGED. After all but DONE close the session. */
betable_status betable_keep_end_of_file(betable_session *session) BETABLE_NOT_NULL;

/* Carries out requests, which are frames as docs/ENGINE.md describes them. The frames of the replies are read by betable_replies_length and
 * betable_copy_replies. If bytes are no frame, their reply says so, and nothing after them is carried out. A crash leaves the changes of all requests of a
 * call, or of none. After DONE make the calls of the file, and tell no reply before. DONE, OUT_OF_MEMORY, NOT_OPEN, NOT_KEPT or FILE_TOO_LONG. After all but
 * DONE later calls return NOT_KEPT. */
betable_status betable_keep_run(betable_session *session, const unsigned char *requests, size_t length) BETABLE_NOT_NULL;

/* Whether the file should get a checkpoint: it has 16 MiB, and is twice as long as after the last one, or as when one was asked for and could not be made. */
bool betable_keep_is_due(betable_session *session) BETABLE_NOT_NULL;

/* Replaces the requests in the file by the state, and empties the replies. Then make the calls of the file. There are none if the table cannot be compacted
 * now, as while an index is building. The result is one of betable_keep_run. */
betable_status betable_keep_checkpoint(betable_session *session) BETABLE_NOT_NULL;

/* Begins a group: what the requests of betable_keep_add change is kept together by betable_keep_commit, or none of it. The replies are emptied, and there are
 * no calls of the file to make. In a group betable_keep_run, betable_keep_checkpoint and betable_keep_begin return NOT_KEPT. DONE, NOT_OPEN or NOT_KEPT. */
betable_status betable_keep_begin(betable_session *session) BETABLE_NOT_NULL;

/* Carries out requests of a group, with replies as those of betable_keep_run, which are to be told after the commit. There are no calls of the file to make.
 * REFUSED if the requests are not whole frames: nothing has changed. DONE, NOT_OPEN, NOT_KEPT, or OUT_OF_MEMORY, after which the group is gone, and the file is
 * to be opened again. */
betable_status betable_keep_add(betable_session *session, const unsigned char *requests, size_t length) BETABLE_NOT_NULL;

/* Keeps the requests of a group, and empties the replies. A crash leaves the changes of all of them, or of none. After DONE make the calls of the file, of
 * which there are none if nothing has changed, and tell no reply of the group before. DONE, NOT_OPEN, NOT_KEPT, or OUT_OF_MEMORY or FILE_TOO_LONG, after which
 * the group is gone, and the file is to be opened again. */
betable_status betable_keep_commit(betable_session *session) BETABLE_NOT_NULL;

/* The number of calls of the file that the last betable_keep_end_of_file, betable_keep_run, betable_keep_checkpoint or betable_keep_commit asks for. */
size_t betable_file_call_count(betable_session *session) BETABLE_NOT_NULL;

/* Tells what the call of the file at a place is, counted from 0. False if there is none; then nothing is written. */
bool betable_file_call_at(betable_session *session, size_t place, betable_file_call *call) BETABLE_NOT_NULL;

/* Copies the bytes of a call of the file from a place on, as many as there are and as fit, and returns their number. */
size_t betable_copy_file_call(betable_session *session, size_t place, size_t from, unsigned char *out, size_t room) BETABLE_NOT_NULL;

#ifdef __cplusplus
}
#endif

#endif
