/*
 * A library to preload into a test's process (LD_PRELOAD). It kills the process at an operation on a file, makes operations fail, and keeps a trace of all
 * operations. For Linux with the GNU C library.
 *
 * An operation is one on a file or a folder below a given folder: a file is created or opened for writing, written, cut or extended, synced, renamed or
 * removed, or the names in a folder are synced. Operations are counted from 0 since `faults_begin`. A sync is not carried out, since a kernel that keeps
 * running loses nothing.
 *
 * An allocation is refused too, the one with a given number.
 *
 * A trace is a file of records: a letter, the path, an offset, a length, each with a zero byte after it, followed by that many bytes.
 *
 *   c path            a file is created                    s path            a file, or the names in a folder, are synced
 *   w path at n ..    n bytes are written at an offset     r path            a file is removed
 *   t path n          a file has n bytes from now on       m path .. n new   a file gets a new name, of n bytes
 *   n "" number       a note of the test                   f path            a sync fails
 */
#define _GNU_SOURCE
#include <errno.h>
#include <fcntl.h>
#include <limits.h>
#include <signal.h>
#include <stdarg.h>
#include <stdbool.h>
#include <stdio.h>
#include <stdlib.h>
#include <string.h>
#include <sys/stat.h>
#include <sys/syscall.h>
#include <unistd.h>

/* How much is carried out of a write that fails, or at which the process is killed. */
enum part { NOTHING, HALF, ALL_BUT_A_BYTE, WHOLE };

static char folder[PATH_MAX];
static int trace = -1;
static long count, kill_at, fail_from, fail_to;
static int part, write_fault;
static bool is_traced_with_bytes;
static bool is_counting_requests;
static long requests, refused_at = -1;

/* The C library's own functions, by names that this file does not define. */
void *__libc_malloc(size_t size);
void *__libc_realloc(void *block, size_t size);

/* From here on operations below a folder are counted. Numbers below 0 kill nothing, and make nothing fail. */
void faults_begin(const char *below, const char *trace_path, bool has_bytes, long killed, long first, long last, int how_much, int fault)
{
    snprintf(folder, sizeof folder, "%s", below);
    count = 0;
    kill_at = killed;
    fail_from = first;
    fail_to = last;
    part = how_much;
    write_fault = fault;
    is_traced_with_bytes = has_bytes;
    trace = (int)syscall(SYS_openat, AT_FDCWD, trace_path, O_CREAT | O_TRUNC | O_WRONLY | O_APPEND, 0644);
}

/* A program that calls nothing of this library has the arguments in its environment, and after them the number of the allocation that is refused. */
__attribute__((constructor)) static void begin_by_environment(void)
{
    char below[PATH_MAX], trace_path[PATH_MAX];
    long killed, first, last, refused;
    int how_much, fault;
    const char *words = getenv("FAULTS");
    if (!words || sscanf(words, "%4095s %4095s %ld %ld %ld %d %d %ld", below, trace_path, &killed, &first, &last, &how_much, &fault, &refused) != 8)
        return;
    faults_begin(below, trace_path, true, killed, first, last, how_much, fault);
    is_counting_requests = true;
    refused_at = refused;
}

static void put(const void *bytes, size_t length)
{
    if (syscall(SYS_write, trace, bytes, length) != (long)length)
        syscall(SYS_kill, getpid(), SIGABRT);
}

static void record(char letter, const char *path, long offset, const void *bytes, size_t length)
{
    char head[PATH_MAX + 64];
    int size = snprintf(head, sizeof head, "%c%s", letter, path) + 1;
    size += snprintf(head + size, sizeof head - (size_t)size, "%ld", offset) + 1;
    size += snprintf(head + size, sizeof head - (size_t)size, "%zu", bytes ? length : 0) + 1;
    put(head, (size_t)size);
    if (bytes && length)
        put(bytes, length);
}

/* A number that the test keeps in the trace, between the operations before and after it. */
void faults_note(long number)
{
    record('n', "", number, NULL, 0);
}

long faults_count(void)
{
    return count;
}

static bool is_below(const char *path)
{
    size_t length = strlen(folder);
    return trace >= 0 && strncmp(path, folder, length) == 0 && (path[length] == '/' || path[length] == 0);
}

static bool is_watched(int file, char *path)
{
    char link[64];
    if (trace < 0 || file == trace)
        return false;
    snprintf(link, sizeof link, "/proc/self/fd/%d", file);
    long length = syscall(SYS_readlinkat, AT_FDCWD, link, path, (size_t)(PATH_MAX - 1));
    if (length < 0)
        return false;
    path[length] = 0;
    return is_below(path);
}

/* The action at an operation. */
enum fate { GO_ON, FAIL, DIE };

static enum fate fate(void)
{
    long number = count++;
    return number == kill_at ? DIE : number >= fail_from && number <= fail_to ? FAIL : GO_ON;
}

static void die(void)
{
    syscall(SYS_kill, getpid(), SIGKILL);
    for (;;)
        pause();
}

static size_t length_of_part(size_t length)
{
    size_t parts[] = {0, length / 2, length - (length > 0), length};
    return parts[part];
}

static long written(int file, const void *bytes, size_t length, off_t at, bool is_placed)
{
    return is_placed ? syscall(SYS_pwrite64, file, bytes, length, at) : syscall(SYS_write, file, bytes, length);
}

static ssize_t write_at(int file, const void *bytes, size_t length, off_t at, bool is_placed)
{
    char path[PATH_MAX];
    if (!is_watched(file, path))
        return written(file, bytes, length, at, is_placed);
    enum fate what = fate();
    size_t size = what == GO_ON ? length : length_of_part(length);
    long offset = is_placed ? at : syscall(SYS_lseek, file, 0, SEEK_CUR);
    if (size) {
        record('w', path, offset, is_traced_with_bytes ? bytes : NULL, size);
        if (written(file, bytes, size, at, is_placed) != (long)size)
            die();
    }
    if (what == DIE)
        die();
    if (what == FAIL) {
        if (!is_placed)
            syscall(SYS_lseek, file, offset, SEEK_SET);
        errno = write_fault;
        return -1;
    }
    return (ssize_t)length;
}

/* Whether to carry out an operation that is atomic. If the process is killed at it, it is carried out first exactly if a write would be carried out whole. */
static bool is_let(char letter, const char *path, long offset, const char *name)
{
    enum fate what = fate();
    if (what == FAIL || (what == DIE && part != WHOLE)) {
        if (what == DIE)
            die();
        if (letter == 's')
            record('f', path, 0, NULL, 0);
        errno = EIO;
        return false;
    }
    record(letter, path, offset, name, name ? strlen(name) : 0);
    return true;
}

static void die_if_it_was_the_one(void)
{
    if (count - 1 == kill_at)
        die();
}

ssize_t write(int file, const void *bytes, size_t length)
{
    return write_at(file, bytes, length, 0, false);
}

ssize_t pwrite(int file, const void *bytes, size_t length, off_t at)
{
    return write_at(file, bytes, length, at, true);
}

ssize_t pwrite64(int file, const void *bytes, size_t length, off_t at)
{
    return write_at(file, bytes, length, at, true);
}

static int sync_of(int file, long call)
{
    char path[PATH_MAX];
    if (!is_watched(file, path))
        return (int)syscall(call, file);
    if (!is_let('s', path, 0, NULL))
        return -1;
    die_if_it_was_the_one();
    return 0;
}

int fsync(int file)
{
    return sync_of(file, SYS_fsync);
}

int fdatasync(int file)
{
    return sync_of(file, SYS_fdatasync);
}

int ftruncate(int file, off_t length)
{
    char path[PATH_MAX];
    if (!is_watched(file, path))
        return (int)syscall(SYS_ftruncate, file, length);
    if (!is_let('t', path, length, NULL))
        return -1;
    int status = (int)syscall(SYS_ftruncate, file, length);
    die_if_it_was_the_one();
    return status;
}

int ftruncate64(int file, off_t length)
{
    return ftruncate(file, length);
}

int unlink(const char *path)
{
    struct stat found;
    if (!is_below(path) || lstat(path, &found) != 0)
        return (int)syscall(SYS_unlinkat, AT_FDCWD, path, 0);
    if (!is_let('r', path, 0, NULL))
        return -1;
    int status = (int)syscall(SYS_unlinkat, AT_FDCWD, path, 0);
    die_if_it_was_the_one();
    return status;
}

int rename(const char *from, const char *to)
{
    if (!is_below(from))
        return (int)syscall(SYS_renameat, AT_FDCWD, from, AT_FDCWD, to);
    if (!is_let('m', from, 0, to))
        return -1;
    int status = (int)syscall(SYS_renameat, AT_FDCWD, from, AT_FDCWD, to);
    die_if_it_was_the_one();
    return status;
}

static int open_file(const char *path, int flags, mode_t mode)
{
    struct stat found;
    if (!(flags & O_CREAT) || !is_below(path) || stat(path, &found) == 0)
        return (int)syscall(SYS_openat, AT_FDCWD, path, flags, mode);
    if (!is_let('c', path, 0, NULL))
        return -1;
    int file = (int)syscall(SYS_openat, AT_FDCWD, path, flags, mode);
    die_if_it_was_the_one();
    return file;
}

int open(const char *path, int flags, ...)
{
    va_list rest;
    va_start(rest, flags);
    mode_t mode = flags & (O_CREAT | O_TMPFILE) ? va_arg(rest, mode_t) : 0;
    va_end(rest);
    return open_file(path, flags, mode);
}

int open64(const char *path, int flags, ...)
{
    va_list rest;
    va_start(rest, flags);
    mode_t mode = flags & (O_CREAT | O_TMPFILE) ? va_arg(rest, mode_t) : 0;
    va_end(rest);
    return open_file(path, flags, mode);
}

/* ---- allocations ---- */

static bool is_refused(void)
{
    if (!is_counting_requests || requests++ != refused_at)
        return false;
    errno = ENOMEM;
    return true;
}

void *malloc(size_t size)
{
    return is_refused() ? NULL : __libc_malloc(size);
}

void *realloc(void *block, size_t size)
{
    return is_refused() ? NULL : __libc_realloc(block, size);
}
