/* The calls of betable_file.h. bin/build_c adds them to the library. They make the calls of a file in the same order and in the same way as the type HostFile of
 * crates/bt_file/src/host_file.rt, by which betable_engine makes them. What a call that failed has written is cut off or removed, which HostFile leaves. */
#define _GNU_SOURCE /* O_CLOEXEC, F_DUPFD_CLOEXEC, flock */
#include "betable_file.h"

#include <errno.h>
#include <fcntl.h>
#include <stdio.h>
#include <stdlib.h>
#include <string.h>
#include <sys/file.h>
#include <sys/random.h>
#include <sys/stat.h>
#include <unistd.h>

enum {
    PIECE = 1 << 20, /* bytes that one call of the system reads or writes */
    RETRY = 1 << 24, /* bytes that are written before a checkpoint that failed is tried again */
    HEADER = 13,     /* bytes of a frame before its payload */
    APPLY = 3,       /* the kind of a request */
    REFUSED = 1      /* the kind of a reply */
};

/* What a file can be used for. */
typedef enum {
    CALLS,     /* for all calls */
    GROUP,     /* for those of a group, which is open */
    ROLL_BACK, /* for betable_file_roll_back: a call failed, and nothing of it is in the file */
    NOTHING    /* for none: a call failed, and it is not known whether it is in the file */
} file_use;

struct betable_file_state {
    betable_session session;
    pid_t owner;
    int file, folder;
    char *name, *new_name; /* without symbolic links; and of the file that a checkpoint writes */
    file_use use;
    size_t checkpoint_count;
    int checkpoint_fault;
    off_t retry_size; /* the size of the file from which on a checkpoint that failed is tried again */
    unsigned char piece[PIECE];
};
typedef struct betable_file_state state;

/* ---- calls of the system ---- */

static betable_status system_fault(void) { return errno == ENOMEM ? BETABLE_OUT_OF_MEMORY : BETABLE_FILE_FAILED; }

static void close_descriptor(int *file) {
    int fault = errno;
    if (*file >= 0)
        close(*file);
    *file = -1;
    errno = fault;
}

/* Opens a file whose descriptor is none of the standard streams, which the caller may have closed: what is written to those must not go to the file. */
static int open_descriptor(const char *path, int flags) {
    int file;
    do
        file = open(path, flags | O_CLOEXEC, 0666);
    while (file < 0 && errno == EINTR);
    if (file < 0 || file > STDERR_FILENO)
        return file;
    int moved = fcntl(file, F_DUPFD_CLOEXEC, STDERR_FILENO + 1);
    close_descriptor(&file);
    return moved;
}

static bool sync_by(int (*call)(int), int file) {
    int result;
    do
        result = call(file);
    while (result != 0 && errno == EINTR);
    return result == 0;
}

static bool cut(int file, uint64_t length) {
    int result;
    do
        result = ftruncate(file, (off_t)length);
    while (result != 0 && errno == EINTR);
    return result == 0;
}

static bool write_all(int file, const unsigned char *bytes, size_t length, uint64_t at) {
    while (length > 0) {
        ssize_t count = pwrite(file, bytes, length, (off_t)at);
        if (count == 0)
            errno = EIO;
        if (count == 0 || (count < 0 && errno != EINTR))
            return false;
        if (count > 0) {
            bytes += count;
            length -= (size_t)count;
            at += (uint64_t)count;
        }
    }
    return true;
}

/* Reads the next bytes of a file from an offset on, and returns their number: 0 at its end, or -1. */
static ssize_t read_piece(int file, unsigned char *piece, size_t room, off_t at) {
    ssize_t count;
    do
        count = pread(file, piece, room, at);
    while (count < 0 && errno == EINTR);
    return count;
}

/* ---- calls of the file ---- */

/* Writes the bytes of a call of the file to a file, from an offset on. */
static bool write_bytes(state *of, size_t place, int file, uint64_t at) {
    size_t count;
    for (size_t from = 0; (count = betable_copy_file_call(&of->session, place, from, of->piece, sizeof of->piece)) > 0; from += count)
        if (!write_all(file, of->piece, count, at + from))
            return false;
    return true;
}

/* Writes the bytes of a call at the end of the file. If that fails, what was written is cut off, and nothing of it is in the file. */
static bool write_end(state *of, size_t place, uint64_t at) {
    if (write_bytes(of, place, of->file, at))
        return true;
    int fault = errno;
    if (cut(of->file, at) && sync_by(fsync, of->file))
        of->use = ROLL_BACK;
    errno = fault;
    return false;
}

/* Makes a new file with the bytes of a call, and gives it the name and the place of this one. Until it has the name, nothing of the call is in the file. */
static bool replace(state *of, size_t place) {
    int file = open_descriptor(of->new_name, O_RDWR | O_CREAT | O_TRUNC);
    bool is_new = file >= 0;
    if (!is_new || flock(file, LOCK_EX | LOCK_NB) != 0 || !write_bytes(of, place, file, 0) || !sync_by(fsync, file) ||
        rename(of->new_name, of->name) != 0) {
        int fault = errno;
        close_descriptor(&file);
        if (is_new)
            unlink(of->new_name); /* what it has may be all that a full disk is short of */
        of->use = ROLL_BACK;
        errno = fault;
        return false;
    }
    close_descriptor(&of->file);
    of->file = file;
    return sync_by(fsync, of->folder);
}

static bool make_call(state *of, size_t place) {
    betable_file_call call;
    if (betable_file_call_at(&of->session, place, &call)) {
        switch (call.kind) {
        case BETABLE_WRITE:
            return write_end(of, place, call.at);
        case BETABLE_CUT:
            return cut(of->file, call.at);
        case BETABLE_REPLACE:
            return replace(of, place);
        case BETABLE_SYNC:
            return sync_by(fdatasync, of->file);
        }
    }
    errno = EPROTO; /* the library is of another version */
    return false;
}

/* Makes the calls that a call of the library with this result asks for. */
static betable_status make_calls(state *of, betable_status status) {
    size_t count = status == BETABLE_DONE ? betable_file_call_count(&of->session) : 0;
    of->use = status == BETABLE_DONE ? NOTHING : ROLL_BACK;
    for (size_t place = 0; place < count; place++)
        if (!make_call(of, place))
            return BETABLE_FILE_FAILED;
    if (status == BETABLE_DONE)
        of->use = CALLS;
    return status;
}

/* ---- opening and closing ---- */

static betable_status open_names(state *of, const char *path) {
    if ((of->file = open_descriptor(path, O_RDWR | O_CREAT)) < 0)
        return system_fault();
    if (flock(of->file, LOCK_EX | LOCK_NB) != 0)
        return errno == EWOULDBLOCK ? BETABLE_FILE_IN_USE : system_fault();
    if ((of->name = realpath(path, NULL)) == NULL)
        return system_fault();
    size_t length = strlen(of->name), of_folder = (size_t)(strrchr(of->name, '/') - of->name);
    if ((of->new_name = calloc(length + sizeof ".new", 1)) == NULL)
        return BETABLE_OUT_OF_MEMORY;
    memcpy(of->new_name, of->name, of_folder == 0 ? 1 : of_folder);
    if ((of->folder = open_descriptor(of->new_name, O_RDONLY | O_DIRECTORY)) < 0)
        return system_fault();
    memcpy(of->new_name, of->name, length);
    memcpy(of->new_name + length, ".new", sizeof ".new");
    return BETABLE_DONE;
}

/* Passes the bytes of the file to the session, and opens the table in them. */
static betable_status read_file(state *of) {
    ssize_t count;
    for (off_t at = 0; (count = read_piece(of->file, of->piece, sizeof of->piece, at)) > 0; at += count) {
        betable_status status = betable_keep_read(&of->session, of->piece, (size_t)count);
        if (status != BETABLE_DONE)
            return status;
    }
    return count == 0 ? betable_keep_end_of_file(&of->session) : system_fault();
}

/* Opens the table in the file, which has its name, and whose bytes are on the disk. */
static betable_status open_session(state *of) {
    struct stat found, named;
    of->use = NOTHING;
    if (fstat(of->file, &found) != 0 || lstat(of->name, &named) != 0)
        return system_fault();
    if (found.st_dev != named.st_dev || found.st_ino != named.st_ino)
        return BETABLE_FILE_IN_USE; /* another process has replaced the file since it was opened */
    if (!sync_by(fsync, of->file) || !sync_by(fsync, of->folder))
        return system_fault();
    of->use = ROLL_BACK;
    uint64_t salt;
    ssize_t count;
    do
        count = getrandom(&salt, sizeof salt, 0);
    while (count < 0 && errno == EINTR);
    if (count != sizeof salt)
        return system_fault();
    betable_status status = betable_keep_open(&of->session, salt);
    return make_calls(of, status == BETABLE_DONE ? read_file(of) : status);
}

static betable_status read_again(state *of) {
    betable_close(&of->session);
    return open_session(of);
}

static void free_state(state *of) {
    close_descriptor(&of->file);
    close_descriptor(&of->folder);
    betable_close(&of->session);
    free(of->name);
    free(of->new_name);
    free(of);
}

betable_status betable_file_open(betable_file *file, const char *path) {
    if (file->at != NULL)
        return BETABLE_ALREADY_OPEN;
    state *of = calloc(1, sizeof *of);
    if (of == NULL)
        return BETABLE_OUT_OF_MEMORY;
    of->owner = getpid();
    of->file = of->folder = -1;
    betable_status status = open_names(of, path);
    if (status == BETABLE_DONE)
        status = open_session(of);
    int fault = errno;
    if (status == BETABLE_DONE)
        file->at = of;
    else
        free_state(of);
    errno = fault;
    return status;
}

/* ---- checkpoints ---- */

static betable_status make_checkpoint(state *of) {
    betable_status status = make_calls(of, betable_keep_checkpoint(&of->session));
    if (status == BETABLE_DONE && betable_file_call_count(&of->session) > 0) {
        of->checkpoint_count++;
        of->checkpoint_fault = 0;
        of->retry_size = 0;
    }
    return status;
}

/* Why a checkpoint with this result was not made, as errno says it. */
static int fault_of(betable_status status) {
    switch (status) {
    case BETABLE_DONE:
        return EAGAIN;
    case BETABLE_OUT_OF_MEMORY:
        return ENOMEM;
    case BETABLE_FILE_TOO_LONG:
        return EFBIG;
    default:
        return errno;
    }
}

/* Makes a checkpoint if one is due. */
static betable_status make_due_checkpoint(state *of) {
    struct stat found;
    if (of->use != CALLS || !betable_keep_is_due(&of->session) || fstat(of->file, &found) != 0 || found.st_size < of->retry_size)
        return BETABLE_DONE;
    size_t count = of->checkpoint_count;
    betable_status status = make_checkpoint(of);
    if (of->checkpoint_count == count)
        of->checkpoint_fault = fault_of(status);
    if (status != BETABLE_DONE)
        of->retry_size = found.st_size + RETRY;
    return status;
}

betable_status betable_file_close(betable_file *file) {
    state *of = file->at;
    if (of == NULL)
        return BETABLE_NOT_OPEN;
    file->at = NULL;
    if (of->owner != getpid()) {
        /* Another thread of the parent may have been in a call, so the session is left as it is. */
        close_descriptor(&of->file);
        close_descriptor(&of->folder);
        return BETABLE_DONE;
    }
    make_due_checkpoint(of);
    free_state(of);
    return BETABLE_DONE;
}

/* ---- requests ---- */

/* Whether this process has the file open. */
static betable_status opened(const betable_file *file) {
    if (file->at == NULL)
        return BETABLE_NOT_OPEN;
    return file->at->owner == getpid() ? BETABLE_DONE : BETABLE_FILE_IN_USE;
}

/* Whether the file can be used. */
static betable_status usable(const betable_file *file) {
    betable_status status = opened(file);
    return status == BETABLE_DONE && file->at->use > GROUP ? BETABLE_NOT_KEPT : status;
}

/* Whether the file can be used for requests, after a checkpoint if one was due. If that failed, and the old file has the name, it is read again. */
static betable_status ready(const betable_file *file) {
    betable_status status = usable(file);
    if (status == BETABLE_DONE && (status = make_due_checkpoint(file->at)) != BETABLE_DONE && file->at->use == ROLL_BACK)
        status = read_again(file->at);
    return status;
}

betable_status betable_file_checkpoint(betable_file *file) {
    betable_status status = usable(file);
    if (status == BETABLE_DONE)
        status = file->at->use == GROUP ? BETABLE_ALREADY_OPEN : make_checkpoint(file->at);
    return status;
}

size_t betable_file_checkpoint_count(const betable_file *file) { return file->at == NULL ? 0 : file->at->checkpoint_count; }

int betable_file_checkpoint_fault(const betable_file *file) { return file->at == NULL ? 0 : file->at->checkpoint_fault; }

/* Carries out requests of the group that is open. */
static betable_status add(state *of, const unsigned char *requests, size_t length) {
    betable_status status = betable_keep_add(&of->session, requests, length);
    if (status != BETABLE_DONE && status != BETABLE_REFUSED)
        of->use = ROLL_BACK;
    return status;
}

betable_status betable_file_run(betable_file *file, const unsigned char *requests, size_t length) {
    betable_status status = ready(file);
    if (status != BETABLE_DONE)
        return status;
    state *of = file->at;
    return of->use == GROUP ? add(of, requests, length) : make_calls(of, betable_keep_run(&of->session, requests, length));
}

betable_status betable_file_begin(betable_file *file) {
    betable_status status = ready(file);
    if (status != BETABLE_DONE)
        return status;
    state *of = file->at;
    if (of->use == GROUP)
        return BETABLE_ALREADY_OPEN;
    status = betable_keep_begin(&of->session);
    of->use = status == BETABLE_DONE ? GROUP : ROLL_BACK;
    return status;
}

betable_status betable_file_commit(betable_file *file) {
    betable_status status = usable(file);
    if (status == BETABLE_DONE)
        status = file->at->use == GROUP ? make_calls(file->at, betable_keep_commit(&file->at->session)) : BETABLE_NOT_KEPT;
    return status;
}

betable_status betable_file_roll_back(betable_file *file) {
    betable_status status = opened(file);
    if (status == BETABLE_DONE)
        status = file->at->use == NOTHING ? BETABLE_NOT_KEPT : read_again(file->at);
    return status;
}

/* ---- packed bytes ---- */

static void put_number(unsigned char *bytes, uint64_t number) {
    for (int place = 0; place < 8; place++)
        bytes[place] = (unsigned char)(number >> 8 * place);
}

static uint64_t number_at(const unsigned char *bytes) {
    uint64_t number = 0;
    for (int place = 8; place-- > 0;)
        number = number << 8 | bytes[place];
    return number;
}

betable_status betable_file_apply(betable_file *file, const unsigned char *changes, size_t length, betable_fault *fault) {
    betable_status status = usable(file);
    if (status != BETABLE_DONE)
        return status;
    unsigned char *request = malloc(HEADER + length), reply[HEADER + 3 * 8];
    if (request == NULL) {
        file->at->use = ROLL_BACK;
        return BETABLE_OUT_OF_MEMORY;
    }
    memcpy(request, "BTF\1", 4);
    put_number(request + 4, length);
    request[HEADER - 1] = APPLY;
    memcpy(request + HEADER, changes, length);
    status = betable_file_run(file, request, HEADER + length);
    int reason = errno;
    free(request);
    errno = reason;
    if (status != BETABLE_DONE || betable_copy_replies(&file->at->session, 0, reply, sizeof reply) < sizeof reply || reply[HEADER - 1] != REFUSED)
        return status;
    *fault = (betable_fault){number_at(reply + HEADER), number_at(reply + HEADER + 8), number_at(reply + HEADER + 16)};
    return BETABLE_REFUSED;
}

typedef betable_status question(betable_session *session, const unsigned char *bytes, size_t length, betable_fault *fault);

static betable_status ask(betable_file *file, question *call, const unsigned char *bytes, size_t length, betable_fault *fault) {
    betable_status status = usable(file);
    return status == BETABLE_DONE ? call(&file->at->session, bytes, length, fault) : status;
}

betable_status betable_file_get(betable_file *file, const unsigned char *key, size_t length, betable_fault *fault) {
    return ask(file, betable_get, key, length, fault);
}

betable_status betable_file_page(betable_file *file, const unsigned char *page, size_t length, betable_fault *fault) {
    return ask(file, betable_page, page, length, fault);
}

betable_status betable_file_last_page(betable_file *file, const unsigned char *page, size_t length, betable_fault *fault) {
    return ask(file, betable_last_page, page, length, fault);
}

betable_status betable_file_sums(betable_file *file, const unsigned char *sums, size_t length, betable_fault *fault) {
    return ask(file, betable_sums, sums, length, fault);
}

betable_status betable_file_columns(betable_file *file, const unsigned char *name, size_t length, betable_fault *fault) {
    return ask(file, betable_columns, name, length, fault);
}

betable_status betable_file_usage(betable_file *file, const unsigned char *name, size_t length, betable_fault *fault) {
    return ask(file, betable_usage, name, length, fault);
}

betable_status betable_file_trees(betable_file *file, const unsigned char *request, size_t length, betable_fault *fault) {
    return ask(file, betable_trees, request, length, fault);
}

/* ---- replies ---- */

size_t betable_file_replies_length(betable_file *file) { return usable(file) == BETABLE_DONE ? betable_replies_length(&file->at->session) : 0; }

size_t betable_file_copy_replies(betable_file *file, size_t from, unsigned char *out, size_t room) {
    return usable(file) == BETABLE_DONE ? betable_copy_replies(&file->at->session, from, out, room) : 0;
}
