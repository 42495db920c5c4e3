/*
 * A library to preload into a program (LD_PRELOAD). It refuses allocations (requests) or starts of threads, like a system that
 * is out of memory or threads. For Linux with the GNU C library.
 *
 * Requests are the calls of malloc, calloc, realloc, reallocarray, posix_memalign and aligned_alloc from the start of the
 * program on, counted from 1. A realloc counts whether it grows or shrinks its block. Starts are the calls of
 * pthread_create, counted alike. Environment variables:
 *
 *   REFUSE_AT          a request that is refused
 *   REFUSE_FROM        the first of the requests that are refused, with all that follow it
 *   REFUSE_START_AT    a start that is refused
 *   REFUSE_START_FROM  the first of the starts that are refused, with all that follow it
 *   COUNT_FILE         the file for the number of requests and that of starts, each as an unsigned long in the machine's byte
 *                      order; they are in memory that is shared with the file, so that they survive any end of the program
 *   NOTE_FILE          the file for a line at each mark 3: the bytes in use, and the numbers of requests and starts so far; with
 *                      this variable those are counted and refused only between the marks of the program
 *   ORDER_FILES        the numbers of two open files: at mark 0 orders are read from the first, and their results are written to
 *                      the second
 *
 * A mark is a request for 2^62 bytes and the number of the mark, which is refused in any case:
 *
 *   0   from here on requests and starts are counted, continuing the count of earlier stretches, and refused as described above
 *   1   from here on none is counted or refused; if one was refused, none is refused in a later stretch
 *   2   from here on each request is refused, and counted separately: their number is written to COUNT_FILE after that of the starts
 *   3   a line is written
 *
 * An order is three unsigned longs: a way to refuse (0 to 3, the first four variables in their order), the number of the refused
 * request or start, counted from the mark, and seconds. A program that has reached mark 0 writes an int, 0. For each order it forks a
 * child, which continues with that request or start refused and is killed after the seconds, and writes the status of the child,
 * an int. At an order with number 0, or if there are no more orders, it continues itself. So the program runs up to a mark only
 * once for all orders at it.
 */
#define _GNU_SOURCE
#include <dlfcn.h>
#include <errno.h>
#include <fcntl.h>
#include <limits.h>
#include <malloc.h>
#include <pthread.h>
#include <stdatomic.h>
#include <stdbool.h>
#include <stddef.h>
#include <stdint.h>
#include <stdio.h>
#include <stdlib.h>
#include <sys/mman.h>
#include <sys/wait.h>
#include <unistd.h>

/* The C library's own functions, by names that this file does not define. */
void *__libc_malloc(size_t size);
void *__libc_calloc(size_t count, size_t size);
void *__libc_realloc(void *block, size_t size);
void *__libc_memalign(size_t alignment, size_t size);
void __libc_free(void *block);

/* The counts, and the numbers that are refused. */
struct refusal {
    unsigned long at;
    unsigned long from;
};

struct counts {
    atomic_ulong requests;
    atomic_ulong starts;
    atomic_ulong apart;
};

/* What happens to requests and starts. */
enum stretch { COUNTED, LET_GO, REFUSED };

/* What is refused in a child: the way, the number, and the seconds within which it has to end. */
struct order {
    unsigned long way;
    unsigned long number;
    unsigned long seconds;
};

static struct counts own_counts;
static struct counts *counts = &own_counts;
static struct refusal of_requests = {ULONG_MAX, ULONG_MAX};
static struct refusal of_starts = {ULONG_MAX, ULONG_MAX};
static bool has_started;
static int notes = -1;
static int orders = -1;
static int ends = -1;
static atomic_int stretch = COUNTED;
static atomic_bool has_refused;
static atomic_long in_use;

/* The number in an environment variable, or one that no request has. */
static unsigned long number_in(const char *name)
{
    const char *text = getenv(name);
    return text == NULL ? ULONG_MAX : strtoul(text, NULL, 10);
}

/* The memory of a file, for counts, or NULL. */
static struct counts *shared_counts(const char *path)
{
    int file = open(path, O_RDWR | O_CREAT | O_TRUNC, 0600);
    if (file < 0)
        return NULL;
    void *memory = MAP_FAILED;
    if (ftruncate(file, sizeof own_counts) == 0)
        memory = mmap(NULL, sizeof own_counts, PROT_READ | PROT_WRITE, MAP_SHARED, file, 0);
    close(file);
    return memory == MAP_FAILED ? NULL : memory;
}

__attribute__((constructor)) static void start(void)
{
    const char *path = getenv("COUNT_FILE");
    if (path != NULL) {
        counts = shared_counts(path);
        if (counts == NULL)
            _exit(70);
    }
    path = getenv("NOTE_FILE");
    if (path != NULL) {
        notes = open(path, O_WRONLY | O_CREAT | O_APPEND, 0600);
        if (notes < 0)
            _exit(70);
        stretch = LET_GO;
    }
    path = getenv("ORDER_FILES");
    if (path != NULL && sscanf(path, "%d %d", &orders, &ends) != 2)
        _exit(70);
    of_requests.at = number_in("REFUSE_AT");
    of_requests.from = number_in("REFUSE_FROM");
    of_starts.at = number_in("REFUSE_START_AT");
    of_starts.from = number_in("REFUSE_START_FROM");
    has_started = true;
}

/* Counts one more, and returns whether it is refused. Requests of the loader before the program are not counted. */
static bool is_among(const struct refusal *refused, atomic_ulong *count)
{
    if (!has_started || stretch == LET_GO)
        return false;
    if (stretch == REFUSED) {
        atomic_fetch_add(&counts->apart, 1);
        return true;
    }
    unsigned long number = atomic_fetch_add(count, 1) + 1;
    if (number != refused->at && number < refused->from)
        return false;
    has_refused = true;
    return true;
}

static void note(void)
{
    char line[80];
    long bytes = in_use;
    unsigned long requests = counts->requests, starts = counts->starts;
    int length = snprintf(line, sizeof line, "%ld %lu %lu\n", bytes, requests, starts);
    if (write(notes, line, (size_t)length) != length)
        _exit(70);
}

/* Forks a child for each order, sets what is refused in it, and waits for it. Returns in each child, and in the parent after the last order. */
static void obey_orders(void)
{
    unsigned long *refused[] = {&of_requests.at, &of_requests.from, &of_starts.at, &of_starts.from};
    struct order order;
    int status = 0;
    for (;;) {
        if (write(ends, &status, sizeof status) != sizeof status)
            _exit(70);
        if (read(orders, &order, sizeof order) != sizeof order || order.number == 0)
            return;
        pid_t child = fork();
        if (child == 0) {
            orders = -1;
            alarm((unsigned)order.seconds);
            *refused[order.way] = (order.way < 2 ? counts->requests : counts->starts) + order.number;
            return;
        }
        if (child < 0 || waitpid(child, &status, 0) != child)
            _exit(70);
    }
}

/* Carries out a mark. After a stretch in which something was refused, nothing more is refused. */
static void obey(size_t mark)
{
    if (mark == 0) {
        if (orders >= 0)
            obey_orders();
        stretch = COUNTED;
    } else if (mark == 1) {
        stretch = LET_GO;
        if (has_refused)
            of_requests = of_starts = (struct refusal){ULONG_MAX, ULONG_MAX};
    } else if (mark == 2) {
        stretch = REFUSED;
    } else if (mark == 3) {
        note();
    }
}

static bool is_refused(size_t size)
{
    if (notes >= 0 && size >> 62 == 1) {
        obey(size & 3);
        return true;
    }
    return is_among(&of_requests, &counts->requests);
}

static void *no_memory(void)
{
    errno = ENOMEM;
    return NULL;
}

/* The block, counted among the bytes in use. */
static void *granted(void *block)
{
    in_use += (long)malloc_usable_size(block);
    return block;
}

/* A block in place of another one. If it is refused, the other one is unchanged. */
static void *resized(void *block, size_t size)
{
    long before = (long)malloc_usable_size(block);
    void *found = __libc_realloc(block, size);
    if (found != NULL || size == 0)
        in_use -= before;
    return granted(found);
}

void *malloc(size_t size)
{
    return is_refused(size) ? no_memory() : granted(__libc_malloc(size));
}

void *calloc(size_t count, size_t size)
{
    return is_refused(size) ? no_memory() : granted(__libc_calloc(count, size));
}

void *realloc(void *block, size_t size)
{
    return is_refused(size) ? no_memory() : resized(block, size);
}

void *reallocarray(void *block, size_t count, size_t size)
{
    if (is_refused(size) || (size != 0 && count > SIZE_MAX / size))
        return no_memory();
    return resized(block, count * size);
}

int posix_memalign(void **block, size_t alignment, size_t size)
{
    void *found = is_refused(size) ? NULL : granted(__libc_memalign(alignment, size));
    if (found == NULL)
        return ENOMEM;
    *block = found;
    return 0;
}

void *aligned_alloc(size_t alignment, size_t size)
{
    return is_refused(size) ? no_memory() : granted(__libc_memalign(alignment, size));
}

void free(void *block)
{
    in_use -= (long)malloc_usable_size(block);
    __libc_free(block);
}

typedef int (*create)(pthread_t *thread, const pthread_attr_t *attributes, void *(*task)(void *), void *argument);

int pthread_create(pthread_t *thread, const pthread_attr_t *attributes, void *(*task)(void *), void *argument)
{
    if (is_among(&of_starts, &counts->starts))
        return EAGAIN;
    return ((create)dlsym(RTLD_NEXT, "pthread_create"))(thread, attributes, task, argument);
}
