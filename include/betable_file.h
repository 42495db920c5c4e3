/* A table in a file, in this process. These calls open the file, and make the calls of the file that betable_keep_run of betable.h asks for, before they give a
 * reply. The library has them. They are tested, and not proved: what is proved of the calls that they make is said in betable.h.
 *
 *     betable_file file = BETABLE_FILE_CLOSED;
 *     if (betable_file_open(&file, "stock.table") != BETABLE_DONE) ...
 *     if (betable_file_run(&file, requests, length) != BETABLE_DONE) ...
 *     size_t count = betable_file_copy_replies(&file, 0, replies, sizeof replies);
 *     betable_file_close(&file);
 *
 * Requests and replies are frames, as docs/ENGINE.md describes them. betable_engine.h has calls that make and read them. `betable_engine --keep` opens the same
 * file.
 *
 * After a run, an apply, a begin, a commit or a checkpoint that failed, later calls return NOT_KEPT, until betable_file_roll_back is DONE, or the file is closed
 * and opened again. It has all that was answered then. If the roll back is DONE, it has nothing of the call that failed. Otherwise that is not known, and a request
 * that runs once can be made again.
 *
 * Your obligations, which nothing checks:
 *   - A file is BETABLE_FILE_CLOSED before its first use, and only these calls write to it. You may move it; use only one of two copies.
 *   - One thread at a time uses a file, as with a session. No argument is a null pointer, even if a length is 0. No call is made from a signal handler.
 *   - No other program writes to the file or takes its name away while it is open. `PATH.new`, beside it, is written at a checkpoint.
 *
 * A child that the process has forked cannot use an open file, and has its lock too: betable_file_close there closes its descriptors, and does nothing else. */
#ifndef BETABLE_FILE_H
#define BETABLE_FILE_H

#include "betable.h"

#ifdef __cplusplus
extern "C" {
#endif

/* A table in a file, if it is open. */
typedef struct {
    struct betable_file_state *at;
} betable_file;

/* A file that is not open. */
#define BETABLE_FILE_CLOSED {NULL}

/* Opens the file at a path, which is made if there is none, and locks it by flock. DONE, ALREADY_OPEN, or one of the results below, after which the file is not
 * open, and what it has is unchanged:
 *   - FILE_IN_USE: the file is open already, or another one took its name meanwhile.
 *   - NOT_A_TABLE, OTHER_FORMAT, OTHER_ENGINE, DAMAGED, FILE_TOO_LONG: the file is none that can be opened.
 *   - FILE_FAILED: a call of the system failed, and errno says why. If it was a write, the file may have a part of a head, or not the end that a crash had torn.
 *   - OUT_OF_MEMORY. */
betable_status betable_file_open(betable_file *file, const char *path) BETABLE_NOT_NULL;

/* Carries out requests. What they change is on the disk when the call returns: a crash leaves the changes of all requests of a call, or of none. If a
 * checkpoint is due, it is made first. DONE, or, after which the file cannot be used, OUT_OF_MEMORY, FILE_TOO_LONG or FILE_FAILED; or, without doing anything,
 * NOT_OPEN, NOT_KEPT after a call that failed, or FILE_IN_USE in a forked child. In a group nothing is written, and no checkpoint is made. There the result is
 * REFUSED, and nothing has changed, if the requests are not whole frames. */
betable_status betable_file_run(betable_file *file, const unsigned char *requests, size_t length) BETABLE_NOT_NULL;

/* As betable_apply, on the table in the file: one request is run. REFUSED with the fault, or one of betable_file_run. The reply is a frame. */
betable_status betable_file_apply(betable_file *file, const unsigned char *changes, size_t length, betable_fault *fault) BETABLE_NOT_NULL;

/* As betable_get, betable_page, betable_last_page, betable_sums, betable_columns, betable_usage and betable_trees, on the table in the file. In a group it has
 * the changes of the group so far. DONE, OUT_OF_MEMORY or REFUSED, after which the file can be used; or NOT_OPEN, NOT_KEPT or FILE_IN_USE. */
betable_status betable_file_get(betable_file *file, const unsigned char *key, size_t length, betable_fault *fault) BETABLE_NOT_NULL;
betable_status betable_file_page(betable_file *file, const unsigned char *page, size_t length, betable_fault *fault) BETABLE_NOT_NULL;
betable_status betable_file_last_page(betable_file *file, const unsigned char *page, size_t length, betable_fault *fault) BETABLE_NOT_NULL;
betable_status betable_file_sums(betable_file *file, const unsigned char *sums, size_t length, betable_fault *fault) BETABLE_NOT_NULL;
betable_status betable_file_columns(betable_file *file, const unsigned char *name, size_t length, betable_fault *fault) BETABLE_NOT_NULL;
betable_status betable_file_usage(betable_file *file, const unsigned char *name, size_t length, betable_fault *fault) BETABLE_NOT_NULL;
betable_status betable_file_trees(betable_file *file, const unsigned char *request, size_t length, betable_fault *fault) BETABLE_NOT_NULL;

/* The number of bytes of the replies to the last run, apply or question, and a copy of some of them: see betable_copy_replies. They are kept until the next
 * call. */
size_t betable_file_replies_length(betable_file *file) BETABLE_NOT_NULL;
size_t betable_file_copy_replies(betable_file *file, size_t from, unsigned char *out, size_t room) BETABLE_NOT_NULL;

/* Begins a group: what betable_file_run and betable_file_apply change from now on is kept together by a commit, or none of it. Use their replies after the
 * commit. If a checkpoint is due, it is made first. ALREADY_OPEN if a group is open, and otherwise one of betable_file_run. */
betable_status betable_file_begin(betable_file *file) BETABLE_NOT_NULL;

/* Keeps a group by one write and one sync, or by none if it changed nothing. NOT_KEPT without a group, and otherwise one of betable_file_run. */
betable_status betable_file_commit(betable_file *file) BETABLE_NOT_NULL;

/* Undoes a group, or a call that failed, if it is certain that nothing of that call is in the file: the file is read again, which takes as long as opening it.
 * DONE: the state is that after the last call outside of a group that was DONE. It is certain after OUT_OF_MEMORY and FILE_TOO_LONG; after a write that failed,
 * whose bytes are cut off; and after a checkpoint that failed before the new file got the name. NOT_KEPT after a sync that failed, or if the bytes could not be
 * cut off. NOT_OPEN, FILE_IN_USE in a forked child, or one of betable_file_open. After all but DONE the file cannot be used any more: close it. */
betable_status betable_file_roll_back(betable_file *file) BETABLE_NOT_NULL;

/* Replaces the requests in the file by the state, as docs/ENGINE.md describes a checkpoint. Nothing is done while an index is building. ALREADY_OPEN in a
 * group, and otherwise one of betable_file_run. */
betable_status betable_file_checkpoint(betable_file *file) BETABLE_NOT_NULL;

/* The number of checkpoints that were made since the file was opened, also by themselves. */
size_t betable_file_checkpoint_count(const betable_file *file) BETABLE_NOT_NULL;

/* The errno that says why the last checkpoint that was due was not made: EAGAIN if the table could not be compacted, as while an index is building. 0 if one
 * was made since. If it is certain that nothing of the checkpoint is in the file, the call before which it was due goes on, and it is tried again once the file
 * has 16 MiB more. */
int betable_file_checkpoint_fault(const betable_file *file) BETABLE_NOT_NULL;

/* Makes a checkpoint if one is due, closes the file and frees its memory. A group that is open is undone. DONE or NOT_OPEN. A checkpoint that fails loses
 * nothing. */
betable_status betable_file_close(betable_file *file) BETABLE_NOT_NULL;

#ifdef __cplusplus
}
#endif

#endif
