/* Groups of a table in a file, calls that fail, checkpoints that are due, and questions, by the calls of betable_file.h. It is linked with betable_file.c by
 * -Wl,--wrap, so that calls of the system fail.
 *
 *     file_groups PATH
 *
 * The status is 1, and a line says where, if something does not hold. */
#define _GNU_SOURCE
#include "betable_file.h"
#include "requests.h"

#include <errno.h>
#include <fcntl.h>
#include <stdarg.h>
#include <sys/file.h>
#include <sys/stat.h>
#include <sys/wait.h>
#include <unistd.h>

static betable_file file = BETABLE_FILE_CLOSED;
static betable_fault fault;
static const char *path;

#define EXPECT(what) expect(what, #what, __LINE__)

static void expect(bool is_so, const char *what, int line) {
    if (!is_so) {
        printf("line %d: not %s\n", line, what);
        exit(1);
    }
}

/* ---- calls of the system ---- */

static const char *failing = "";                 /* the names of those that fail */
static unsigned not_yet, writes, syncs, renames; /* the number of these that do not fail before; and of calls */

int __real_open(const char *path, int flags, ...);
int __real_fsync(int file);
int __real_fdatasync(int file);
int __real_ftruncate(int file, off_t length);
ssize_t __real_pwrite(int file, const void *bytes, size_t length, off_t at);
int __real_flock(int file, int how);
int __real_rename(const char *from, const char *to);
void *__real_malloc(size_t size);

static bool fails(const char *name, int code) {
    const char *found = strstr(failing, name);
    char after = found == NULL ? 0 : found[strlen(name)];
    if (found == NULL || (found != failing && found[-1] != ' ') || (after != 0 && after != ' ') || not_yet-- > 0)
        return false;
    not_yet = 0;
    errno = code;
    return true;
}

int __wrap_open(const char *name, int flags, ...) {
    va_list rest;
    va_start(rest, flags);
    mode_t mode = va_arg(rest, mode_t);
    va_end(rest);
    return fails("open", EACCES) ? -1 : __real_open(name, flags, mode);
}

int __wrap_fsync(int of) { return fails("fsync", EIO) ? -1 : __real_fsync(of); }

int __wrap_fdatasync(int of) {
    syncs++;
    return fails("fdatasync", EIO) ? -1 : __real_fdatasync(of);
}

int __wrap_ftruncate(int of, off_t length) { return fails("ftruncate", EIO) ? -1 : __real_ftruncate(of, length); }

/* One that fails writes a part. */
ssize_t __wrap_pwrite(int of, const void *bytes, size_t length, off_t at) {
    writes++;
    bool is_failing = fails("pwrite", ENOSPC);
    ssize_t count = __real_pwrite(of, bytes, is_failing ? length - length / 3 : length, at);
    if (!is_failing)
        return count;
    errno = ENOSPC;
    return -1;
}

int __wrap_flock(int of, int how) { return fails("flock", ENOLCK) ? -1 : __real_flock(of, how); }

int __wrap_rename(const char *from, const char *to) {
    renames++;
    return fails("rename", EIO) ? -1 : __real_rename(from, to);
}

void *__wrap_malloc(size_t size) { return fails("malloc", ENOMEM) ? NULL : __real_malloc(size); }

/* ---- calls of the library, whose memory is refused ---- */

betable_status __real_betable_keep_run(betable_session *session, const unsigned char *requests, size_t length);
betable_status __real_betable_keep_add(betable_session *session, const unsigned char *requests, size_t length);
betable_status __real_betable_keep_commit(betable_session *session);
betable_status __real_betable_keep_checkpoint(betable_session *session);

betable_status __wrap_betable_keep_run(betable_session *session, const unsigned char *requests, size_t length) {
    return fails("run", ENOMEM) ? BETABLE_OUT_OF_MEMORY : __real_betable_keep_run(session, requests, length);
}

betable_status __wrap_betable_keep_add(betable_session *session, const unsigned char *requests, size_t length) {
    return fails("add", ENOMEM) ? BETABLE_OUT_OF_MEMORY : __real_betable_keep_add(session, requests, length);
}

betable_status __wrap_betable_keep_commit(betable_session *session) {
    return fails("commit", ENOMEM) ? BETABLE_FILE_TOO_LONG : __real_betable_keep_commit(session);
}

betable_status __wrap_betable_keep_checkpoint(betable_session *session) {
    return fails("checkpoint", 0) ? BETABLE_OUT_OF_MEMORY : __real_betable_keep_checkpoint(session);
}

/* ---- calls of the table ---- */

/* The request of a kind with this payload. */
static const message *frame(int kind, const void *payload, size_t length) {
    static message made;
    memcpy(made.at, "BTF\1", 4);
    made.length = 4;
    add_number(&made, length, 8);
    add_byte(&made, (uint64_t)kind);
    memcpy(made.at + made.length, payload, length);
    made.length += length;
    return &made;
}

static betable_status run_frame(betable_file *on, const message *request) { return betable_file_run(on, request->at, request->length); }

static betable_status run_script(const char *script) { return run_frame(&file, frame(1, script, strlen(script))); }

static betable_status apply(int64_t id, int64_t qty) {
    static message changes;
    begin(&changes, 1);
    add_byte(&changes, PUT);
    add_number(&changes, (uint64_t)id, 8);
    add_number(&changes, (uint64_t)qty, 8);
    return betable_file_apply(&file, changes.at, changes.length, &fault);
}

static betable_status get(int64_t id) {
    static message key;
    begin(&key, 1);
    add_number(&key, (uint64_t)id, 8);
    return betable_file_get(&file, key.at, key.length, &fault);
}

static const message *replies_of(betable_file *on) {
    static message found;
    found.length = betable_file_copy_replies(on, 0, found.at, sizeof found.at);
    EXPECT(found.length == betable_file_replies_length(on));
    return &found;
}

/* Whether this is the text of the reply to a script. */
static bool replied(const char *text) {
    const message *found = replies_of(&file);
    return found->length >= 13 + strlen(text) && found->at[12] == 0 && found->at[found->length - 8] == strlen(text) &&
           memcmp(found->at + 13, text, strlen(text)) == 0;
}

static bool has_rows(const char *rows) { return run_script("scan primary\ngo\n") == BETABLE_DONE && replied(rows); }

static void open_new(const char *table) {
    unlink(path);
    EXPECT(betable_file_open(&file, path) == BETABLE_DONE && run_script(table) == BETABLE_DONE);
}

static void open_again(void) { EXPECT(betable_file_close(&file) == BETABLE_DONE && betable_file_open(&file, path) == BETABLE_DONE); }

static const char TABLE[] = "table 4 8 4 1 id:int qty:int\n";

/* ---- groups ---- */

static void check_no_group(void) {
    EXPECT(betable_file_begin(&file) == BETABLE_NOT_OPEN && betable_file_commit(&file) == BETABLE_NOT_OPEN);
    EXPECT(betable_file_roll_back(&file) == BETABLE_NOT_OPEN && apply(1, 1) == BETABLE_NOT_OPEN && get(1) == BETABLE_NOT_OPEN);
    EXPECT(betable_file_checkpoint_count(&file) == 0 && betable_file_checkpoint_fault(&file) == 0);
    open_new(TABLE);
    EXPECT(betable_file_commit(&file) == BETABLE_NOT_KEPT && run_script("batch\nput 1,10\nend\n") == BETABLE_DONE && replied("batch 1\n"));
    EXPECT(betable_file_roll_back(&file) == BETABLE_DONE && betable_file_replies_length(&file) == 0 && has_rows("row 1,10\nrows 1\n"));
}

/* Requests that are not whole frames are refused, and the group goes on. */
static void check_no_frames(void) {
    message request = *frame(1, "batch\nput 9,9\nend\n", 18);
    EXPECT(betable_file_run(&file, request.at, request.length - 1) == BETABLE_REFUSED && betable_file_replies_length(&file) == 0);
    add_byte(&request, 'B');
    EXPECT(run_frame(&file, &request) == BETABLE_REFUSED && betable_file_run(&file, request.at + 1, request.length - 1) == BETABLE_REFUSED);
    EXPECT(betable_file_run(&file, request.at, 0) == BETABLE_DONE && betable_file_replies_length(&file) == 0);
}

static void check_groups(void) {
    writes = syncs = 0;
    EXPECT(betable_file_begin(&file) == BETABLE_DONE && betable_file_replies_length(&file) == 0);
    EXPECT(run_script("batch\nput 2,20\nend\n") == BETABLE_DONE && replied("batch 1\n") && apply(3, 30) == BETABLE_DONE);
    EXPECT(betable_file_begin(&file) == BETABLE_ALREADY_OPEN && betable_file_checkpoint(&file) == BETABLE_ALREADY_OPEN);
    check_no_frames();
    EXPECT(run_script("batch\nups 2,add,qty,1\nend\nbatch\nput x,1\nend\n") == BETABLE_DONE);
    EXPECT(has_rows("row 1,10\nrow 2,21\nrow 3,30\nrows 3\n") && get(2) == BETABLE_DONE && replies_of(&file)->length == 20 && replies_of(&file)->at[12] == 21);
    EXPECT(betable_file_apply(&file, (const unsigned char *)"", 0, &fault) == BETABLE_REFUSED && fault.refusal == 1);
    EXPECT(writes == 0 && syncs == 0);
    EXPECT(betable_file_commit(&file) == BETABLE_DONE && betable_file_replies_length(&file) == 0 && writes == 1 && syncs == 1);
    EXPECT(betable_file_commit(&file) == BETABLE_NOT_KEPT && has_rows("row 1,10\nrow 2,21\nrow 3,30\nrows 3\n"));
    /* A second one, one that changes nothing, one that is undone, and one that the close undoes. */
    EXPECT(betable_file_begin(&file) == BETABLE_DONE && apply(1, 11) == BETABLE_DONE && apply(4, 40) == BETABLE_DONE);
    EXPECT(betable_file_commit(&file) == BETABLE_DONE && writes == 2 && syncs == 2);
    EXPECT(betable_file_begin(&file) == BETABLE_DONE && get(1) == BETABLE_DONE && betable_file_commit(&file) == BETABLE_DONE && writes == 2 && syncs == 2);
    EXPECT(betable_file_begin(&file) == BETABLE_DONE && run_script("batch\ndel 1\ndel 2\nend\nindex by_qty on qty\n") == BETABLE_DONE);
    EXPECT(betable_file_roll_back(&file) == BETABLE_DONE && has_rows("row 1,11\nrow 2,21\nrow 3,30\nrow 4,40\nrows 4\n"));
    EXPECT(betable_file_begin(&file) == BETABLE_DONE && apply(5, 50) == BETABLE_DONE && writes == 2 && syncs == 2);
    open_again();
    EXPECT(has_rows("row 1,11\nrow 2,21\nrow 3,30\nrow 4,40\nrows 4\n"));
}

/* A request that runs once is known if its group is kept, and not if it is undone. */
static void check_once(void) {
    static const char once[] = "0123456789abcdef\1batch\nups 1,add,qty,1\nend\nget 1\n";
    message request = *frame(12, once, sizeof once - 1);
    for (int is_kept = 0; is_kept <= 1; is_kept++) {
        EXPECT(betable_file_begin(&file) == BETABLE_DONE && run_frame(&file, &request) == BETABLE_DONE && replied("batch 1\nrow 1,12\n"));
        EXPECT((is_kept ? betable_file_commit(&file) : betable_file_roll_back(&file)) == BETABLE_DONE);
    }
    EXPECT(run_frame(&file, &request) == BETABLE_DONE && replied("batch 1\nrow 1,12\n") && apply(1, 11) == BETABLE_DONE);
}

/* ---- calls that fail ---- */

static betable_status by_run(void) { return run_script("batch\nput 1,12\nput 9,90\nend\n"); }

static betable_status by_apply(void) { return apply(1, 12); }

static betable_status by_commit(void) {
    betable_status begun = betable_file_begin(&file);
    return begun == BETABLE_DONE && apply(1, 12) == BETABLE_DONE && by_run() == BETABLE_DONE ? betable_file_commit(&file) : begun;
}

static bool is_closed(void) {
    return run_script("get 1\n") == BETABLE_NOT_KEPT && apply(1, 1) == BETABLE_NOT_KEPT && get(1) == BETABLE_NOT_KEPT &&
           betable_file_replies_length(&file) == 0 && betable_file_begin(&file) == BETABLE_NOT_KEPT && betable_file_commit(&file) == BETABLE_NOT_KEPT &&
           betable_file_checkpoint(&file) == BETABLE_NOT_KEPT;
}

/* A call whose calls of these names fail. If nothing of it is in the file, a roll back makes the file usable, and otherwise none does. */
static void check_fault(betable_status (*call)(void), const char *names, betable_status status, int code, bool is_certain) {
    static const char before[] = "row 1,11\nrow 2,21\nrow 3,30\nrow 4,40\nrows 4\n";
    struct stat found, later;
    open_again();
    EXPECT(apply(1, 11) == BETABLE_DONE && run_script("batch\ndel 9\nend\n") == BETABLE_DONE && has_rows(before));
    failing = names;
    errno = 0;
    EXPECT(call() == status && errno == code && is_closed());
    failing = "";
    stat(path, &found);
    EXPECT(betable_file_roll_back(&file) == (is_certain ? BETABLE_DONE : BETABLE_NOT_KEPT));
    stat(path, &later);
    EXPECT(found.st_size == later.st_size && (is_certain ? has_rows(before) : is_closed()));
    EXPECT(!is_certain || (call() == BETABLE_DONE && get(1) == BETABLE_DONE && replies_of(&file)->at[12] == 12));
    open_again();
    EXPECT(get(1) == BETABLE_DONE && (replies_of(&file)->at[12] == 12 || (!is_certain && replies_of(&file)->at[12] == 11)));
}

static void check_faults(void) {
    betable_status (*const calls[])(void) = {by_run, by_apply, by_commit};
    for (size_t place = 0; place < 3; place++) {
        check_fault(calls[place], "pwrite", BETABLE_FILE_FAILED, ENOSPC, true);
        check_fault(calls[place], "pwrite ftruncate", BETABLE_FILE_FAILED, ENOSPC, false);
        check_fault(calls[place], "pwrite fsync", BETABLE_FILE_FAILED, ENOSPC, false);
        check_fault(calls[place], "fdatasync", BETABLE_FILE_FAILED, EIO, false);
    }
    check_fault(by_run, "run", BETABLE_OUT_OF_MEMORY, ENOMEM, true);
    check_fault(by_apply, "malloc", BETABLE_OUT_OF_MEMORY, ENOMEM, true);
    check_fault(by_commit, "commit", BETABLE_FILE_TOO_LONG, ENOMEM, true);
    static const char *const in_group[] = {"malloc", "add"};
    for (size_t place = 0; place < 2; place++) {
        EXPECT(apply(1, 11) == BETABLE_DONE && betable_file_begin(&file) == BETABLE_DONE && apply(1, 12) == BETABLE_DONE);
        failing = in_group[place];
        EXPECT(by_apply() == BETABLE_OUT_OF_MEMORY && is_closed());
        failing = "";
        EXPECT(betable_file_roll_back(&file) == BETABLE_DONE && get(1) == BETABLE_DONE && replies_of(&file)->at[12] == 11);
    }
    /* A roll back that fails. */
    EXPECT(betable_file_begin(&file) == BETABLE_DONE && apply(1, 12) == BETABLE_DONE);
    failing = "fsync";
    EXPECT(betable_file_roll_back(&file) == BETABLE_FILE_FAILED && errno == EIO && is_closed());
    failing = "";
    EXPECT(betable_file_roll_back(&file) == BETABLE_NOT_KEPT && is_closed());
    open_again();
    EXPECT(get(1) == BETABLE_DONE && replies_of(&file)->at[12] == 11);
}

static void check_forked_child(void) {
    EXPECT(betable_file_begin(&file) == BETABLE_DONE && apply(1, 12) == BETABLE_DONE);
    pid_t child = fork();
    if (child == 0) {
        bool is_refused = betable_file_begin(&file) == BETABLE_FILE_IN_USE && betable_file_commit(&file) == BETABLE_FILE_IN_USE &&
                          betable_file_roll_back(&file) == BETABLE_FILE_IN_USE && apply(1, 13) == BETABLE_FILE_IN_USE && get(1) == BETABLE_FILE_IN_USE;
        _exit(!is_refused);
    }
    int status;
    EXPECT(waitpid(child, &status, 0) == child && status == 0);
    EXPECT(betable_file_commit(&file) == BETABLE_DONE && get(1) == BETABLE_DONE && replies_of(&file)->at[12] == 12);
}

/* ---- checkpoints ---- */

static void check_checkpoints(void) {
    static const char *const names[] = {"checkpoint", "open", "flock", "pwrite", "fsync", "rename"};
    char new_name[4096];
    snprintf(new_name, sizeof new_name, "%s.new", path);
    for (size_t place = 0; place < 6; place++) {
        failing = names[place];
        EXPECT(betable_file_checkpoint(&file) == (place == 0 ? BETABLE_OUT_OF_MEMORY : BETABLE_FILE_FAILED) && is_closed() && access(new_name, F_OK) != 0);
        failing = "";
        EXPECT(betable_file_roll_back(&file) == BETABLE_DONE && betable_file_checkpoint_count(&file) == 0);
        EXPECT(get(1) == BETABLE_DONE && replies_of(&file)->at[12] == 12 && betable_file_checkpoint_fault(&file) == 0);
    }
    EXPECT(betable_file_checkpoint(&file) == BETABLE_DONE && betable_file_checkpoint_count(&file) == 1 && betable_file_replies_length(&file) == 0);
    /* The new file has the name, and it is not known for how long. */
    failing = "fsync";
    not_yet = 1;
    EXPECT(betable_file_checkpoint(&file) == BETABLE_FILE_FAILED && errno == EIO && is_closed() && betable_file_checkpoint_count(&file) == 1);
    failing = "";
    EXPECT(betable_file_roll_back(&file) == BETABLE_NOT_KEPT && is_closed());
    open_again();
    EXPECT(get(1) == BETABLE_DONE && replies_of(&file)->at[12] == 12 && betable_file_checkpoint_count(&file) == 0);
}

/* Carries out a request of more than a megabyte, in a group or not. */
static betable_status run_long(bool in_group) {
    static unsigned char request[(1 << 20) + 13];
    memset(request, '\n', sizeof request);
    memcpy(request, frame(1, "", 0)->at, 13);
    request[4 + 2] = 1 << 4; /* the length of the payload */
    memcpy(request + 13, "batch\nups 1,add,qty,1\nend\n", 26);
    betable_status status = in_group ? betable_file_begin(&file) : BETABLE_DONE;
    if (status == BETABLE_DONE)
        status = betable_file_run(&file, request, sizeof request);
    return status == BETABLE_DONE && in_group ? betable_file_commit(&file) : status;
}

static off_t size_of_file(void) {
    struct stat found;
    return stat(path, &found) == 0 ? found.st_size : 0;
}

/* A close after a call that may be in the file makes no checkpoint. */
static void check_close(void) {
    open_new(TABLE);
    for (int count = 0; count < 15; count++)
        EXPECT(run_long(false) == BETABLE_DONE);
    failing = "fdatasync";
    EXPECT(run_long(false) == BETABLE_FILE_FAILED);
    failing = "";
    renames = 0;
    EXPECT(betable_file_close(&file) == BETABLE_DONE && renames == 0 && size_of_file() > 1 << 24);
    EXPECT(betable_file_open(&file, path) == BETABLE_DONE && betable_file_close(&file) == BETABLE_DONE && renames == 1 && size_of_file() < 1 << 20);
}

/* A checkpoint that is due: of a table that cannot be compacted, one that fails, one that is made, and one of which it is not known whether it was made. */
static void check_due_checkpoints(void) {
    int64_t count = 0;
    open_new(TABLE);
    EXPECT(apply(1, 0) == BETABLE_DONE && run_script("index by_qty on qty\n") == BETABLE_DONE);
    for (; betable_file_checkpoint_fault(&file) == 0; count++)
        EXPECT(run_long(true) == BETABLE_DONE && count < 20);
    EXPECT(count > 15 && betable_file_checkpoint_fault(&file) == EAGAIN && run_script("build by_qty 9\n") == BETABLE_DONE);
    failing = "checkpoint";
    for (; betable_file_checkpoint_fault(&file) == EAGAIN; count++)
        EXPECT(run_long(count % 2) == BETABLE_DONE && count < 40);
    EXPECT(betable_file_checkpoint_fault(&file) == ENOMEM && get(1) == BETABLE_DONE && replies_of(&file)->at[12] == count);
    open_again();
    failing = "rename";
    renames = 0;
    for (; renames == 0; count++)
        EXPECT(run_long(count % 2) == BETABLE_DONE && count < 40);
    off_t size = size_of_file();
    EXPECT(betable_file_checkpoint_fault(&file) == EIO && betable_file_checkpoint_count(&file) == 0);
    for (; size_of_file() < size + (15 << 20); count++)
        EXPECT(run_long(count % 2) == BETABLE_DONE && renames == 1);
    failing = "";
    for (; betable_file_checkpoint_count(&file) == 0; count++)
        EXPECT(run_long(count % 2) == BETABLE_DONE && count < 60);
    EXPECT(renames == 2 && betable_file_checkpoint_fault(&file) == 0 && size_of_file() < 2 << 20);
    EXPECT(get(1) == BETABLE_DONE && replies_of(&file)->at[12] == count);
    failing = "fsync";
    not_yet = 1;
    for (; renames == 2; count++)
        EXPECT(run_long(false) == (renames == 2 ? BETABLE_DONE : BETABLE_FILE_FAILED) && count < 90);
    EXPECT(is_closed() && betable_file_checkpoint_fault(&file) == EIO && betable_file_checkpoint_count(&file) == 1);
    failing = "";
    not_yet = 0;
    EXPECT(betable_file_roll_back(&file) == BETABLE_NOT_KEPT);
    open_again();
    EXPECT(get(1) == BETABLE_DONE && replies_of(&file)->at[12] == count - 1);
}

/* ---- questions ---- */

typedef betable_status file_call(betable_file *file, const unsigned char *given, size_t length, betable_fault *fault);

/* Random requests of each call, and the same ones by frames in another file, whose replies are the same. */
static void check_questions(void) {
    static file_call *const call[CALLS] = {betable_file_apply, betable_file_get,     betable_file_page,  betable_file_last_page,
                                           betable_file_sums,  betable_file_columns, betable_file_usage, betable_file_trees};
    static message given, replied;
    char name[4096];
    size_t refused = 0;
    betable_file other = BETABLE_FILE_CLOSED;
    snprintf(name, sizeof name, "%s.other", path);
    open_new(SCHEMA);
    EXPECT(betable_file_open(&other, name) == BETABLE_DONE && run_frame(&other, frame(1, SCHEMA, strlen(SCHEMA))) == BETABLE_DONE);
    for (size_t round = 0, in_group = 0; round < 4000; round++) {
        size_t kind = below(CALLS);
        if (below(20) == 0) {
            EXPECT((in_group ? betable_file_commit(&file) : betable_file_begin(&file)) == BETABLE_DONE);
            in_group = !in_group;
        }
        (below(2) == 0 ? write_request : write_message)(&given, kind);
        betable_status status = call[kind](&file, given.at, given.length, &fault);
        replied = *replies_of(&file);
        EXPECT(run_frame(&other, frame((int)kind + 3, given.at, given.length)) == BETABLE_DONE);
        const message *wanted = replies_of(&other);
        EXPECT(status == (wanted->at[12] == 0 ? BETABLE_DONE : BETABLE_REFUSED));
        if (status == BETABLE_REFUSED) {
            refused++;
            replied.length = 0;
            add_number(&replied, fault.refusal, 8), add_number(&replied, fault.item, 8), add_number(&replied, fault.column, 8);
        }
        if (kind != APPLY || status == BETABLE_REFUSED)
            EXPECT(replied.length == wanted->length - 13 && memcmp(replied.at, wanted->at + 13, replied.length) == 0);
    }
    EXPECT(refused > 400 && refused < 3600 && betable_file_close(&other) == BETABLE_DONE);
}

int main(int count, char **words) {
    if (count != 2)
        return 2;
    path = words[1];
    check_no_group();
    check_groups();
    check_once();
    check_faults();
    check_forked_child();
    check_checkpoints();
    EXPECT(betable_file_close(&file) == BETABLE_DONE);
    check_close();
    check_due_checkpoints();
    EXPECT(betable_file_close(&file) == BETABLE_DONE);
    check_questions();
    EXPECT(betable_file_close(&file) == BETABLE_DONE);
    return 0;
}
