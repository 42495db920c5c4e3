/* The calls of a session on packed bytes, from values of Python and back, with no code of Python in between. `session.py` uses this module if it is built; if
 * it is not, calls on values go by scripts.
 *
 * Only plain arguments are taken here: values of exactly the types of their columns, in tuples and lists. For all others, and for what the library refuses,
 * `put`, `batch`, `get`, `scan` and `sums` call the method of the same name of the class `plain`, which makes the arguments plain or says what is wrong with
 * them, and the methods for that class return None. So there is one place where errors are made.
 *
 * The module is not linked with the library. ctypes has loaded it, and `_connect` gets the addresses of its calls, so the process has one copy of the library:
 * the one that opened the session. Without addresses, as for an engine, packed bytes go to the method `_ask`, which returns the reply, or None if they are
 * refused. Changes of a table in a file go there too, and from there, as scripts do, to `exchange`, which makes one call of what would be several of ctypes.
 *
 * Code of Python may run during a call: the collector of garbage runs `__del__` when an object is made, and that may call the session again. So the bytes of a
 * call are its own (from `taken` to `kept`), `is_ready` is asked directly before the library is called, and a reply is read directly after. Values are borrowed
 * from their rows only while no object is made and nothing of Python is called.
 *
 * One call at a time uses a session, of any thread. The lock of the session is a flag, which is written while the interpreter lock is held. It is set while
 * other threads run during a call of the library, and in the contexts in which the plain class calls it. A call that finds it set goes to the plain class,
 * which raises the fault.
 *
 * Threads may share a table in a file: its lock also has a mutex. Each call takes it, and waits until another thread has given it back. A thread that has it may
 * take it again, so that a group is a context in which it is held.
 */
#define Py_LIMITED_API 0x030B0000
#define PY_SSIZE_T_CLEAN
#include <Python.h>

#include <errno.h>
#include <stdint.h>
#include <string.h>

#include "betable_file.h"

enum { INT, TEXT, FLAG, BYTES = 4 };
enum { PUT, DEL, UPS };
enum { SET };
enum { NO_BOUND, PREFIX, AFTER };
/* The most columns that the rows of a tree have, operations of an upsert, and messages of a batch. */
enum { MOST_COLUMNS = 32, MOST_OPERATIONS = 16, MOST_MESSAGES = 65536 };
enum { MAGIC_LENGTH = 4, HEADER_LENGTH = 8, FRAME_HEAD = 13, MOST_VALUE_LENGTH = 256 };
#define FRAME_MAGIC "BTF\1"
#define MOST_ROWS 0xFFFFFFFFu
/* Shapes of upserts that are kept at a time. */
#define MOST_SHAPES 1000
/* Other threads run during a call of the library with this many bytes of changes, or with pages of this many rows, and during sums. */
#define MUCH_CHANGED 8192
#define MUCH_READ 512
/* The calls of the library that `_connect` takes. */
#define CALL_COUNT 9
/* Those that `exchange_by` takes. */
#define FILE_CALL_COUNT 5
/* Room that is kept from call to call. */
#define FIRST_ROOM 4096
#define MOST_ROOM (1u << 20)

/* The calls on packed bytes, in the order of CALLS, and what `_ask` has as the number of the first one. */
enum { APPLY, GET, PAGE, LAST_PAGE, SUMS, PACKED_CALL_COUNT };
#define FIRST_REQUEST 3

typedef bool reply_call(betable_session *, size_t, betable_reply_place *);
typedef betable_status packed_call(betable_session *, const unsigned char *, size_t, betable_fault *);
typedef size_t length_call(betable_session *);
typedef size_t copy_call(betable_session *, size_t, unsigned char *, size_t);
typedef betable_status run_call(betable_file *, const unsigned char *, size_t);
typedef size_t file_length_call(betable_file *);
typedef size_t file_copy_call(betable_file *, size_t, unsigned char *, size_t);
typedef size_t checkpoint_count_call(const betable_file *);
typedef int checkpoint_fault_call(const betable_file *);

/* The outcome of a step: an exception is set, the values are for the plain class, or it is done. */
typedef enum { RAISED = -1, OTHER, DONE } outcome;

typedef struct {
    unsigned char *at;
    size_t length, capacity;
} bytes_in_room;

typedef struct {
    PyObject_HEAD
    int is_taken;
    PyThread_type_lock mutex; /* or NULL if calls do not wait */
    unsigned long holder;     /* the thread that has the mutex, if the depth is not 0 */
    Py_ssize_t depth;         /* how often it has taken it */
} call_lock;

/* The calls on a table in a file, in the order of FILE_CALLS. */
typedef struct {
    run_call *run;
    file_length_call *length;
    file_copy_call *copy;
    checkpoint_count_call *checkpoint_count;
    checkpoint_fault_call *checkpoint_fault;
} calls_on_file;

/* A context in which a thread has the mutex of a lock. */
typedef struct {
    PyObject_HEAD
    call_lock *lock;
} hold;

typedef struct {
    PyObject_HEAD
    PyObject *owner;          /* of the session's memory */
    betable_session *session; /* of the library, or NULL */
    packed_call *calls[PACKED_CALL_COUNT];
    PyObject *asked; /* the reply of `_ask`, until it is read */
    length_call *length, *reply_count;
    copy_call *copy;
    reply_call *reply;
    call_lock *lock;
    PyObject *trees, *primary; /* the descriptions by their names, and that of the rows, or NULL */
    PyObject *shapes;          /* of upserts: the code and the column of each operation, as bytes */
    bytes_in_room room;
} caller;

/* The rows of a tree. `trees` has them as bytes: the number of key columns, that of columns, the kinds, and the name as a text. */
typedef struct {
    Py_ssize_t keys, columns;
    const unsigned char *kinds, *name;
    size_t name_length; /* with its byte of length */
} tree;

static PyObject *plain, *message_type, *lock_type, *hold_type;
static PyObject *word_name, *shape_name, *values_name, *put_word, *del_word, *ups_word, *plan_name, *out_of_memory_name, *ask_name;
static PyObject *names_of_scan[6], *names_of_sums[5];

#define FAST(call) (PyCFunction)(void (*)(void))(call)

/* ---- room ---- */

static int has_room(bytes_in_room *bytes, size_t more)
{
    if (more <= bytes->capacity - bytes->length)
        return 1;
    if (more > SIZE_MAX / 4 - bytes->length) {
        PyErr_NoMemory();
        return 0;
    }
    size_t capacity = 2 * (bytes->length + more);
    unsigned char *found = PyMem_Realloc(bytes->at, capacity);
    if (found == NULL) {
        PyErr_NoMemory();
        return 0;
    }
    bytes->at = found;
    bytes->capacity = capacity;
    return 1;
}

/* The room of a caller, which has none until it is given back. */
static int taken(caller *self, bytes_in_room *bytes)
{
    *bytes = self->room;
    bytes->length = 0;
    self->room = (bytes_in_room){NULL, 0, 0};
    return has_room(bytes, bytes->capacity ? 0 : FIRST_ROOM);
}

static void kept(caller *self, bytes_in_room *bytes)
{
    if (self->room.at != NULL || bytes->capacity > MOST_ROOM)
        PyMem_Free(bytes->at);
    else
        self->room = *bytes;
}

/* The next ones are called with enough room. */

static void add_byte(bytes_in_room *bytes, unsigned number)
{
    bytes->at[bytes->length++] = (unsigned char)number;
}

static void add_number(bytes_in_room *bytes, uint64_t number, int count)
{
    for (int place = 0; place < count; place++)
        bytes->at[bytes->length + (size_t)place] = (unsigned char)(number >> 8 * place);
    bytes->length += (size_t)count;
}

static void add_bytes(bytes_in_room *bytes, const void *given, size_t length)
{
    memcpy(bytes->at + bytes->length, given, length);
    bytes->length += length;
}

static void begin(bytes_in_room *bytes, uint64_t number)
{
    bytes->length = 0;
    add_bytes(bytes, "BTV\1", MAGIC_LENGTH);
    add_number(bytes, number, HEADER_LENGTH - MAGIC_LENGTH);
}

/* ---- values to bytes ---- */

/* Adds a value, for which there is room. Runs no code of Python, except if it is OTHER. */
static outcome add_value(bytes_in_room *bytes, PyObject *value, unsigned kind)
{
    const char *text;
    char *binary;
    Py_ssize_t length;
    int overflow;
    switch (kind) {
    case INT:
        if (!PyLong_CheckExact(value))
            return OTHER;
        long long number = PyLong_AsLongLongAndOverflow(value, &overflow);
        if (overflow != 0)
            return OTHER;
        add_number(bytes, (uint64_t)number, 8);
        return DONE;
    case TEXT:
        if (!PyUnicode_CheckExact(value))
            return OTHER;
        text = PyUnicode_AsUTF8AndSize(value, &length);
        if (text == NULL) {
            /* Half of a surrogate pair, or no memory. */
            PyErr_Clear();
            return OTHER;
        }
        if (length >= MOST_VALUE_LENGTH)
            return OTHER;
        break;
    case FLAG:
        if (value != Py_True && value != Py_False)
            return OTHER;
        add_byte(bytes, value == Py_True);
        return DONE;
    default:
        if (!PyBytes_CheckExact(value) || PyBytes_AsStringAndSize(value, &binary, &length) < 0 || length >= MOST_VALUE_LENGTH)
            return OTHER;
        text = binary;
    }
    add_byte(bytes, (unsigned)length);
    add_bytes(bytes, text, (size_t)length);
    return DONE;
}

static int is_sequence(PyObject *given)
{
    return PyTuple_CheckExact(given) || PyList_CheckExact(given);
}

static Py_ssize_t length_of(PyObject *given)
{
    return PyTuple_CheckExact(given) ? PyTuple_Size(given) : PyList_Size(given);
}

/* An item of a sequence, which is borrowed. Its place was compared with the length after code of Python ran last. */
static PyObject *item_of(PyObject *given, Py_ssize_t place)
{
    return PyTuple_CheckExact(given) ? PyTuple_GetItem(given, place) : PyList_GetItem(given, place);
}

/* The values of a sequence from a place on, as many as it has there, each of its kind. */
static outcome add_values(bytes_in_room *bytes, PyObject *given, Py_ssize_t from, Py_ssize_t count, const unsigned char *kinds)
{
    if (!has_room(bytes, (size_t)count * MOST_VALUE_LENGTH))
        return RAISED;
    for (Py_ssize_t place = 0; place < count; place++) {
        if (add_value(bytes, item_of(given, from + place), kinds[place]) != DONE)
            return OTHER;
    }
    return DONE;
}

static outcome add_rows(bytes_in_room *bytes, PyObject *rows, const tree *there)
{
    Py_ssize_t count = length_of(rows);
    begin(bytes, (uint64_t)count);
    for (Py_ssize_t place = 0; place < count; place++) {
        PyObject *row = item_of(rows, place);
        if (!is_sequence(row) || length_of(row) != there->columns)
            return OTHER;
        if (!has_room(bytes, 1))
            return RAISED;
        add_byte(bytes, PUT);
        outcome found = add_values(bytes, row, 0, there->columns, there->kinds);
        if (found != DONE)
            return found;
    }
    return DONE;
}

/* ---- messages ---- */

/* The operations of the upserts of a shape, as bytes, a new reference: `_plan` says what they are, or None if they cannot be packed. */
static PyObject *plan_of(caller *self, PyObject *shape)
{
    PyObject *found = PyDict_GetItemWithError(self->shapes, shape);
    if (found != NULL) {
        Py_INCREF(found);
        return found;
    }
    if (PyErr_Occurred())
        return NULL;
    found = PyObject_CallMethodObjArgs((PyObject *)self, plan_name, shape, NULL);
    if (found == NULL)
        return NULL;
    if (PyDict_Size(self->shapes) >= MOST_SHAPES)
        PyDict_Clear(self->shapes);
    if (PyDict_SetItem(self->shapes, shape, found) < 0) {
        Py_DECREF(found);
        return NULL;
    }
    return found;
}

static outcome add_upsert(bytes_in_room *bytes, PyObject *values, PyObject *plan, const tree *there)
{
    char *given;
    Py_ssize_t length;
    if (!PyBytes_CheckExact(plan) || PyBytes_AsStringAndSize(plan, &given, &length) < 0 || length_of(values) != there->keys + length / 2)
        return OTHER;
    const unsigned char *operations = (const unsigned char *)given;
    outcome found = add_values(bytes, values, 0, there->keys, there->kinds);
    if (found != DONE)
        return found;
    if (!has_room(bytes, 1))
        return RAISED;
    add_byte(bytes, (unsigned)(length / 2));
    for (Py_ssize_t place = 0; place < length; place += 2) {
        if (operations[place + 1] >= there->columns)
            return OTHER;
        if (!has_room(bytes, 2))
            return RAISED;
        add_bytes(bytes, operations + place, 2);
        const unsigned char kind = operations[place] == SET ? there->kinds[operations[place + 1]] : INT;
        found = add_values(bytes, values, there->keys + place / 2, 1, &kind);
        if (found != DONE)
            return found;
    }
    return DONE;
}

static outcome add_message(caller *self, bytes_in_room *bytes, PyObject *message, const tree *there)
{
    if ((PyObject *)Py_TYPE(message) != message_type)
        return OTHER;
    outcome found = RAISED;
    PyObject *shape = NULL, *plan = NULL;
    PyObject *word = PyObject_GetAttr(message, word_name), *values = PyObject_GetAttr(message, values_name);
    if (word == NULL || values == NULL || !has_room(bytes, 1))
        goto end;
    found = OTHER;
    if (!PyTuple_CheckExact(values))
        goto end;
    if (word == put_word || word == del_word) {
        Py_ssize_t count = word == put_word ? there->columns : there->keys;
        add_byte(bytes, word == put_word ? PUT : DEL);
        if (length_of(values) == count)
            found = add_values(bytes, values, 0, count, there->kinds);
    } else if (word == ups_word) {
        add_byte(bytes, UPS);
        shape = PyObject_GetAttr(message, shape_name);
        plan = shape == NULL ? NULL : plan_of(self, shape);
        found = plan == NULL ? RAISED : add_upsert(bytes, values, plan, there);
    }
end:
    Py_XDECREF(word);
    Py_XDECREF(values);
    Py_XDECREF(shape);
    Py_XDECREF(plan);
    return found;
}

static outcome add_messages(caller *self, bytes_in_room *bytes, PyObject *messages, const tree *there)
{
    Py_ssize_t count = length_of(messages);
    begin(bytes, (uint64_t)count);
    for (Py_ssize_t place = 0; place < count; place++) {
        /* A shape that is new is learned by code of Python, which may change the list. */
        if (place >= length_of(messages))
            return OTHER;
        PyObject *message = Py_NewRef(item_of(messages, place));
        outcome found = add_message(self, bytes, message, there);
        Py_DECREF(message);
        if (found != DONE)
            return found;
    }
    return DONE;
}

/* ---- columns ---- */

/* The values of one column: those of a buffer of ints of eight bytes, those of a sequence, or one value for all rows. */
typedef struct {
    Py_buffer view;
    enum { VIEW, SEQUENCE, ONE_FOR_ALL } form;
    unsigned kind;
    PyObject *values;
} column;

/* The changes that columns are: the word of each, and of an upsert the code and the column of each operation. */
typedef struct {
    unsigned word;
    const unsigned char *operations;
    Py_ssize_t operation_count, keys, count;
    column columns[MOST_COLUMNS + MOST_OPERATIONS];
} changes_by_columns;

static int is_int64(const Py_buffer *view)
{
    const char *format = view->format == NULL ? "B" : view->format;
    const uint16_t one = 1;
    const char own_order = *(const unsigned char *)&one == 1 ? '<' : '>';
    if (*format == '@' || *format == '=' || *format == own_order)
        format++;
    return view->ndim == 1 && view->itemsize == 8 && (strcmp(format, "q") == 0 || strcmp(format, "l") == 0);
}

static int is_one_value(PyObject *given)
{
    return PyLong_CheckExact(given) || PyUnicode_CheckExact(given) || PyBool_Check(given) || PyBytes_CheckExact(given);
}

/* Opens a column, with a reference to it, if it is DONE. May run code of Python. */
static outcome open_column(column *found, PyObject *values, unsigned kind)
{
    found->kind = kind;
    found->values = Py_NewRef(values);
    if (is_sequence(values) || is_one_value(values)) {
        found->form = is_sequence(values) ? SEQUENCE : ONE_FOR_ALL;
        return DONE;
    }
    if (kind == INT && PyObject_CheckBuffer(values)) {
        if (PyObject_GetBuffer(values, &found->view, PyBUF_STRIDES | PyBUF_FORMAT) == 0) {
            if (is_int64(&found->view)) {
                found->form = VIEW;
                return DONE;
            }
            PyBuffer_Release(&found->view);
        }
        PyErr_Clear();
    }
    Py_DECREF(values);
    return OTHER;
}

static void close_column(column *one)
{
    if (one->form == VIEW)
        PyBuffer_Release(&one->view);
    Py_DECREF(one->values);
}

/* Whether a column has as many values as there are changes. */
static int has_length(const column *one, Py_ssize_t count)
{
    return one->form == ONE_FOR_ALL || (one->form == VIEW ? one->view.shape[0] : length_of(one->values)) == count;
}

/* The next value of a column, for which there is room. */
static outcome add_of_column(bytes_in_room *bytes, const column *one, Py_ssize_t row)
{
    if (one->form == VIEW) {
        int64_t number;
        memcpy(&number, (const char *)one->view.buf + row * one->view.strides[0], sizeof number);
        add_number(bytes, (uint64_t)number, 8);
        return DONE;
    }
    return add_value(bytes, one->form == SEQUENCE ? item_of(one->values, row) : one->values, one->kind);
}

static outcome add_columns(bytes_in_room *bytes, const changes_by_columns *changes)
{
    const Py_ssize_t columns = changes->keys + changes->operation_count;
    for (Py_ssize_t place = 0; place < columns; place++) {
        if (!has_length(&changes->columns[place], changes->count))
            return OTHER;
    }
    begin(bytes, (uint64_t)changes->count);
    for (Py_ssize_t row = 0; row < changes->count; row++) {
        if (!has_room(bytes, 2 + (size_t)columns * (2 + MOST_VALUE_LENGTH)))
            return RAISED;
        add_byte(bytes, changes->word);
        for (Py_ssize_t place = 0; place < columns; place++) {
            if (changes->word == UPS && place == changes->keys)
                add_byte(bytes, (unsigned)changes->operation_count);
            if (place >= changes->keys)
                add_bytes(bytes, changes->operations + 2 * (place - changes->keys), 2);
            if (add_of_column(bytes, &changes->columns[place], row) != DONE)
                return OTHER;
        }
    }
    return DONE;
}

/* ---- bytes to values ---- */

typedef struct {
    const unsigned char *at, *end;
} reader;

static PyObject *not_of_layout(void)
{
    PyErr_SetString(PyExc_RuntimeError, "betable: a reply of the library is not of the layout of its tree");
    return NULL;
}

static uint64_t number_at(const unsigned char *at)
{
    uint64_t number = 0;
    for (int place = 7; place >= 0; place--)
        number = number << 8 | at[place];
    return number;
}

/* The place of the next bytes, or NULL if fewer are left. */
static const unsigned char *next_bytes(reader *reply, size_t count)
{
    if (count > (size_t)(reply->end - reply->at))
        return NULL;
    const unsigned char *found = reply->at;
    reply->at += count;
    return found;
}

static const unsigned char *next_text(reader *reply, size_t *length)
{
    const unsigned char *head = next_bytes(reply, 1);
    if (head == NULL)
        return NULL;
    *length = *head;
    return next_bytes(reply, *length);
}

static PyObject *next_value(reader *reply, unsigned kind)
{
    const unsigned char *found;
    size_t length = 0;
    switch (kind) {
    case INT:
        found = next_bytes(reply, 8);
        return found == NULL ? not_of_layout() : PyLong_FromLongLong((long long)number_at(found));
    case TEXT:
        found = next_text(reply, &length);
        return found == NULL ? not_of_layout() : PyUnicode_DecodeUTF8((const char *)found, (Py_ssize_t)length, NULL);
    case FLAG:
        found = next_bytes(reply, 1);
        return found == NULL ? not_of_layout() : PyBool_FromLong(*found);
    default:
        found = next_text(reply, &length);
        return found == NULL ? not_of_layout() : PyBytes_FromStringAndSize((const char *)found, (Py_ssize_t)length);
    }
}

/* The next values, in a new tuple after places for others. */
static PyObject *next_tuple(reader *reply, Py_ssize_t before, Py_ssize_t count, const unsigned char *kinds)
{
    PyObject *row = PyTuple_New(before + count);
    if (row == NULL)
        return NULL;
    for (Py_ssize_t place = 0; place < count; place++) {
        PyObject *value = next_value(reply, kinds[place]);
        if (value == NULL || PyTuple_SetItem(row, before + place, value) < 0) {
            Py_DECREF(row);
            return NULL;
        }
    }
    /* It can be in no cycle, so the collector of garbage does not look at it. It would find that out itself, later. */
    PyObject_GC_UnTrack(row);
    return row;
}

/* A number of sixteen bytes, in two's complement. */
static PyObject *wide_number(const unsigned char *at)
{
    const uint64_t low = number_at(at);
    const int64_t high = (int64_t)number_at(at + 8);
    if (high == (low >> 63 ? -1 : 0))
        return PyLong_FromLongLong((long long)low);
    PyObject *found = NULL, *upper = PyLong_FromLongLong(high), *lower = PyLong_FromUnsignedLongLong(low), *places = PyLong_FromLong(64);
    PyObject *shifted = upper != NULL && lower != NULL && places != NULL ? PyNumber_Lshift(upper, places) : NULL;
    if (shifted != NULL)
        found = PyNumber_Or(shifted, lower);
    Py_XDECREF(upper);
    Py_XDECREF(lower);
    Py_XDECREF(places);
    Py_XDECREF(shifted);
    return found;
}

static PyObject *next_group(reader *reply, Py_ssize_t count, const unsigned char *kinds)
{
    PyObject *group = next_tuple(reply, 2, count, kinds);
    const unsigned char *numbers = group == NULL ? NULL : next_bytes(reply, 24);
    if (numbers == NULL) {
        Py_XDECREF(group);
        return group == NULL ? NULL : not_of_layout();
    }
    /* A place takes the reference to its value, also if that is not done. */
    PyObject *rows = PyLong_FromUnsignedLongLong(number_at(numbers));
    int is_set = rows != NULL && PyTuple_SetItem(group, 0, rows) == 0;
    PyObject *sum = is_set ? wide_number(numbers + 8) : NULL;
    is_set = sum != NULL && PyTuple_SetItem(group, 1, sum) == 0;
    if (!is_set)
        Py_CLEAR(group);
    return group;
}

/* All rows of a reply, or all groups, in a list. */
static PyObject *listed(reader reply, Py_ssize_t count, const unsigned char *kinds, int are_groups)
{
    PyObject *found = PyList_New(0);
    while (found != NULL && reply.at < reply.end) {
        PyObject *one = are_groups ? next_group(&reply, count, kinds) : next_tuple(&reply, 0, count, kinds);
        if (one == NULL || PyList_Append(found, one) < 0)
            Py_CLEAR(found);
        Py_XDECREF(one);
    }
    return found;
}

/* The number of rows of a reply, or -1 if it is not of the layout. */
static Py_ssize_t counted(reader reply, const tree *there)
{
    Py_ssize_t count = 0;
    for (; reply.at < reply.end; count++) {
        for (Py_ssize_t place = 0; place < there->columns; place++) {
            size_t length = 0;
            const unsigned kind = there->kinds[place];
            const unsigned char *found = kind == INT ? next_bytes(&reply, 8) : kind == FLAG ? next_bytes(&reply, 1) : next_text(&reply, &length);
            if (found == NULL)
                return -1;
        }
    }
    return count;
}

/* Reads the values of a row into the columns at its place. Whether it could. A reply has as many bytes as `counted` found. */
static int is_row_read(reader *reply, const tree *there, PyObject *const *columns, Py_ssize_t row)
{
    for (Py_ssize_t place = 0; place < there->columns; place++) {
        if (there->kinds[place] == INT) {
            const uint64_t number = number_at(next_bytes(reply, 8));
            memcpy(PyBytes_AsString(columns[place]) + 8 * row, &number, sizeof number);
        } else {
            PyObject *value = next_value(reply, there->kinds[place]);
            if (value == NULL || PyList_SetItem(columns[place], row, value) < 0)
                return 0;
        }
    }
    return 1;
}

/* The columns of all rows of a reply: of ints their bytes, in the order of this machine, and a list of other values. */
static PyObject *as_columns(reader reply, const tree *there)
{
    PyObject *columns[MOST_COLUMNS], *found = NULL;
    Py_ssize_t made = 0;
    const Py_ssize_t count = counted(reply, there);
    int is_done = count >= 0;
    if (!is_done)
        not_of_layout();
    for (; is_done && made < there->columns; made += is_done) {
        /* A reply has eight bytes for each int, so as many are less than there can be. */
        columns[made] = there->kinds[made] == INT ? PyBytes_FromStringAndSize(NULL, count * 8) : PyList_New(count);
        is_done = columns[made] != NULL;
    }
    for (Py_ssize_t row = 0; is_done && row < count; row++)
        is_done = is_row_read(&reply, there, columns, row);
    if (is_done)
        found = PyList_New(0);
    for (Py_ssize_t place = 0; place < made; place++) {
        if (found != NULL && PyList_Append(found, columns[place]) < 0)
            Py_CLEAR(found);
        Py_DECREF(columns[place]);
    }
    return found;
}

/* ---- calls of the library ---- */

/* Takes the mutex, if there is one. Whether it could: the handler of a signal may raise meanwhile. */
static int is_entered(call_lock *lock)
{
    if (lock->mutex == NULL)
        return 1;
    const unsigned long thread = PyThread_get_thread_ident();
    if (lock->depth > 0 && lock->holder == thread) {
        lock->depth++;
        return 1;
    }
    PyLockStatus status = PyThread_acquire_lock_timed(lock->mutex, 0, 0);
    while (status != PY_LOCK_ACQUIRED) {
        Py_BEGIN_ALLOW_THREADS
        status = PyThread_acquire_lock_timed(lock->mutex, -1, 1);
        Py_END_ALLOW_THREADS
        if (status == PY_LOCK_INTR && PyErr_CheckSignals() < 0)
            return 0;
    }
    lock->holder = thread;
    lock->depth = 1;
    return 1;
}

/* Gives the mutex back. */
static void leave_lock(call_lock *lock)
{
    if (lock->mutex != NULL && --lock->depth == 0)
        PyThread_release_lock(lock->mutex);
}

/* Waits until no other thread makes a call. What is not open is for the plain class. Followed by `end_call` if it is DONE. */
static outcome begin_call(caller *self)
{
    if (self->lock == NULL || (self->session != NULL && !self->session->is_open))
        return OTHER;
    return is_entered(self->lock) ? DONE : RAISED;
}

static void end_call(caller *self)
{
    leave_lock(self->lock);
}

static int is_ready(const caller *self)
{
    return self->lock != NULL && !self->lock->is_taken && (self->session == NULL || self->session->is_open);
}

/* Asks by the method `_ask`, which takes the lock. Its reply is kept until it is read. */
static outcome asked_by_method(caller *self, unsigned number, const bytes_in_room *bytes)
{
    PyObject *request = PyLong_FromLong((long)number + FIRST_REQUEST), *found = NULL;
    PyObject *given = PyBytes_FromStringAndSize((const char *)bytes->at, (Py_ssize_t)bytes->length);
    if (request != NULL && given != NULL)
        found = PyObject_CallMethodObjArgs((PyObject *)self, ask_name, request, given, NULL);
    Py_XDECREF(request);
    Py_XDECREF(given);
    PyObject *earlier = self->asked;
    self->asked = found;
    Py_XDECREF(earlier);
    return found == NULL ? RAISED : PyBytes_CheckExact(found) ? DONE : OTHER;
}

/* Calls the library. A call that is refused is for the plain class, which says why. */
static outcome called(caller *self, unsigned number, const bytes_in_room *bytes, int lets_others_run)
{
    if (!is_ready(self))
        return OTHER;
    if (self->session == NULL || (number == APPLY && self->lock->mutex != NULL))
        return asked_by_method(self, number, bytes);
    packed_call *call = self->calls[number];
    betable_fault fault;
    betable_status status;
    if (lets_others_run) {
        self->lock->is_taken = 1;
        Py_BEGIN_ALLOW_THREADS
        status = call(self->session, bytes->at, bytes->length, &fault);
        Py_END_ALLOW_THREADS
        self->lock->is_taken = 0;
    } else {
        status = call(self->session, bytes->at, bytes->length, &fault);
    }
    if (status == BETABLE_OUT_OF_MEMORY) {
        Py_XDECREF(PyObject_CallMethodObjArgs((PyObject *)self, out_of_memory_name, NULL));
        return PyErr_Occurred() ? RAISED : OTHER;
    }
    return status == BETABLE_DONE ? DONE : OTHER;
}

/* Copies the reply of `_ask` into the room, and lets go of it. */
static outcome copy_asked(caller *self, bytes_in_room *bytes)
{
    char *given;
    Py_ssize_t length;
    PyObject *found = self->asked;
    self->asked = NULL;
    bytes->length = 0;
    outcome ended = PyBytes_AsStringAndSize(found, &given, &length) == 0 && has_room(bytes, (size_t)length) ? DONE : RAISED;
    if (ended == DONE)
        add_bytes(bytes, given, (size_t)length);
    Py_DECREF(found);
    return ended;
}

/* Copies the reply that the library keeps into the room. */
static outcome copy_kept(caller *self, bytes_in_room *bytes)
{
    bytes->length = self->copy(self->session, 0, bytes->at, bytes->capacity);
    if (bytes->length == bytes->capacity) {
        const size_t length = self->length(self->session);
        bytes->length = 0;
        if (!has_room(bytes, length))
            return RAISED;
        bytes->length = self->copy(self->session, 0, bytes->at, length);
    }
    return DONE;
}

/* Reads the reply of the last call into the same room, and sets where its rows are. */
static outcome read_reply(caller *self, bytes_in_room *bytes, reader *reply)
{
    if ((self->session == NULL ? copy_asked : copy_kept)(self, bytes) != DONE)
        return RAISED;
    if (bytes->length < MAGIC_LENGTH || memcmp(bytes->at, "BTV\1", MAGIC_LENGTH) != 0) {
        not_of_layout();
        return RAISED;
    }
    *reply = (reader){bytes->at + MAGIC_LENGTH, bytes->at + bytes->length};
    return DONE;
}

/* The method of the plain class with the same arguments. */
static PyObject *by_python(PyObject *self, const char *name, PyObject *const *args, Py_ssize_t count, PyObject *names)
{
    if (plain == NULL) {
        PyErr_SetString(PyExc_RuntimeError, "betable._packed is used by betable.session, which prepares it");
        return NULL;
    }
    PyObject *method = PyObject_GetAttrString(plain, name), *given = PyTuple_New(count + 1), *named = NULL, *found = NULL;
    if (method == NULL || given == NULL)
        goto end;
    Py_INCREF(self);
    if (PyTuple_SetItem(given, 0, self) < 0)
        goto end;
    for (Py_ssize_t place = 0; place < count; place++) {
        Py_INCREF(args[place]);
        if (PyTuple_SetItem(given, place + 1, args[place]) < 0)
            goto end;
    }
    if (names != NULL) {
        named = PyDict_New();
        for (Py_ssize_t place = 0; named != NULL && place < PyTuple_Size(names); place++) {
            if (PyDict_SetItem(named, PyTuple_GetItem(names, place), args[count + place]) < 0)
                goto end;
        }
        if (named == NULL)
            goto end;
    }
    found = PyObject_Call(method, given, named);
end:
    Py_XDECREF(method);
    Py_XDECREF(given);
    Py_XDECREF(named);
    return found;
}

/* A tree of a description, to which the caller has a reference. */
static int described(PyObject *description, tree *found)
{
    char *given;
    Py_ssize_t length;
    if (description == NULL || !PyBytes_CheckExact(description) || PyBytes_AsStringAndSize(description, &given, &length) < 0 || length < 3)
        return 0;
    const unsigned char *at = (const unsigned char *)given;
    found->keys = at[0];
    found->columns = at[1];
    found->kinds = at + 2;
    found->name = at + 2 + found->columns;
    if (found->columns < 1 || found->columns > MOST_COLUMNS || found->keys > found->columns || length <= 2 + found->columns)
        return 0;
    found->name_length = 1u + *found->name;
    return length == 2 + found->columns + (Py_ssize_t)found->name_length;
}

/* A new reference to the description of a tree with this name, or of the tree of rows, or NULL, also with an exception. */
static PyObject *description_of(const caller *self, PyObject *name)
{
    PyObject *found = self->primary;
    if (name != NULL)
        found = self->trees != NULL && PyUnicode_CheckExact(name) ? PyDict_GetItemWithError(self->trees, name) : NULL;
    Py_XINCREF(found);
    return found;
}

/* ---- changes ---- */

typedef outcome encoder(caller *, bytes_in_room *, PyObject *, const tree *);

static outcome of_rows(caller *self, bytes_in_room *bytes, PyObject *rows, const tree *there)
{
    (void)self;
    return add_rows(bytes, rows, there);
}

/* Applies changes that an encoder makes of what is given. */
static outcome applied(caller *self, encoder *encode, PyObject *given)
{
    tree there;
    bytes_in_room bytes;
    outcome found = begin_call(self);
    if (found != DONE)
        return found;
    PyObject *description = is_ready(self) ? description_of(self, NULL) : NULL;
    found = OTHER;
    if (described(description, &there)) {
        found = taken(self, &bytes) ? encode(self, &bytes, given, &there) : RAISED;
        if (found == DONE)
            found = called(self, APPLY, &bytes, bytes.length >= MUCH_CHANGED);
        kept(self, &bytes);
    }
    Py_XDECREF(description);
    end_call(self);
    return found;
}

/* The count of what was given to `put` or `batch`, if it is one batch that is applied here. */
static PyObject *applied_count(PyObject *self, encoder *encode, const char *name, PyObject *const *args, Py_ssize_t count, PyObject *names)
{
    if (count == 1 && names == NULL && is_sequence(args[0])) {
        const Py_ssize_t length = length_of(args[0]);
        const outcome found = length >= 1 && length <= MOST_MESSAGES ? applied((caller *)self, encode, args[0]) : OTHER;
        if (found != OTHER)
            return found == DONE ? PyLong_FromSsize_t(length) : NULL;
    }
    return by_python(self, name, args, count, names);
}

static PyObject *call_put(PyObject *self, PyObject *const *args, Py_ssize_t count, PyObject *names)
{
    return applied_count(self, of_rows, "put", args, count, names);
}

static PyObject *call_batch(PyObject *self, PyObject *const *args, Py_ssize_t count, PyObject *names)
{
    return applied_count(self, add_messages, "batch", args, count, names);
}

/* The bytes of one batch, or None if it is none of plain values. */
static PyObject *packed(PyObject *object, encoder *encode, PyObject *given)
{
    caller *self = (caller *)object;
    tree there;
    bytes_in_room bytes;
    PyObject *found = NULL;
    outcome ended = begin_call(self);
    if (ended != DONE)
        return ended == RAISED ? NULL : Py_NewRef(Py_None);
    PyObject *description = is_ready(self) ? description_of(self, NULL) : NULL;
    ended = OTHER;
    if (described(description, &there)) {
        ended = taken(self, &bytes) ? encode(self, &bytes, given, &there) : RAISED;
        if (ended == DONE) {
            found = PyBytes_FromStringAndSize((const char *)bytes.at, (Py_ssize_t)bytes.length);
            ended = found == NULL ? RAISED : DONE;
        }
        kept(self, &bytes);
    }
    Py_XDECREF(description);
    end_call(self);
    return ended != OTHER ? found : PyErr_Occurred() ? NULL : Py_NewRef(Py_None);
}

static int is_batch(PyObject *given)
{
    return PyList_CheckExact(given) && length_of(given) >= 1 && length_of(given) <= MOST_MESSAGES;
}

static PyObject *pack_rows(PyObject *self, PyObject *rows)
{
    return is_batch(rows) ? packed(self, of_rows, rows) : Py_NewRef(Py_None);
}

static PyObject *pack_messages(PyObject *self, PyObject *messages)
{
    return is_batch(messages) ? packed(self, add_messages, messages) : Py_NewRef(Py_None);
}

/* The kind of a column of the changes: those of the row or the key, and after them the columns of the operations. -1 if there is none. */
static int kind_of(const changes_by_columns *changes, Py_ssize_t place, const tree *there)
{
    if (place < changes->keys)
        return there->kinds[place];
    const unsigned char *operation = changes->operations + 2 * (place - changes->keys);
    return operation[1] >= there->columns ? -1 : operation[0] == SET ? there->kinds[operation[1]] : INT;
}

/* What `given` is, a list of the number of changes, their form and their columns. The form is the word of a change, and of an upsert its operations. */
static outcome of_columns(caller *self, bytes_in_room *bytes, PyObject *given, const tree *there)
{
    (void)self;
    changes_by_columns changes;
    PyObject *columns = item_of(given, 2);
    char *form;
    Py_ssize_t length, opened = 0;
    int overflow;
    changes.count = (Py_ssize_t)PyLong_AsLongLongAndOverflow(item_of(given, 0), &overflow);
    if (PyBytes_AsStringAndSize(item_of(given, 1), &form, &length) < 0)
        return RAISED;
    if (changes.count < 1 || changes.count > MOST_MESSAGES || length < 1)
        return OTHER;
    changes.word = (unsigned char)*form;
    changes.operations = (const unsigned char *)form + 1;
    changes.operation_count = (length - 1) / 2;
    changes.keys = changes.word == PUT ? there->columns : there->keys;
    if (changes.operation_count > MOST_OPERATIONS || (changes.word == UPS) != (changes.operation_count > 0))
        return OTHER;
    const Py_ssize_t count = changes.keys + changes.operation_count;
    outcome found = length_of(columns) == count ? DONE : OTHER;
    while (found == DONE && opened < count) {
        const int kind = opened < length_of(columns) ? kind_of(&changes, opened, there) : -1;
        found = kind < 0 ? OTHER : open_column(&changes.columns[opened], item_of(columns, opened), (unsigned)kind);
        opened += found == DONE;
    }
    if (found == DONE)
        found = add_columns(bytes, &changes);
    while (opened > 0)
        close_column(&changes.columns[--opened]);
    return found;
}

/* What `given` is, a list of the form of upserts and their rows: the values of a key, and those of the operations. */
static outcome of_upsert_rows(caller *self, bytes_in_room *bytes, PyObject *given, const tree *there)
{
    (void)self;
    PyObject *rows = item_of(given, 1);
    const Py_ssize_t count = length_of(rows);
    char *form;
    Py_ssize_t length;
    if (PyBytes_AsStringAndSize(item_of(given, 0), &form, &length) < 0)
        return RAISED;
    const unsigned char *operations = (const unsigned char *)form + 1;
    const Py_ssize_t operation_count = (length - 1) / 2;
    if (length < 1 || *form != UPS || operation_count < 1 || operation_count > MOST_OPERATIONS)
        return OTHER;
    for (Py_ssize_t place = 0; place < operation_count; place++) {
        if (operations[2 * place + 1] >= there->columns)
            return OTHER;
    }
    begin(bytes, (uint64_t)count);
    for (Py_ssize_t number = 0; number < count; number++) {
        PyObject *row = item_of(rows, number);
        if (!is_sequence(row) || length_of(row) != there->keys + operation_count)
            return OTHER;
        if (!has_room(bytes, 2 + (size_t)(there->keys + operation_count) * (2 + MOST_VALUE_LENGTH)))
            return RAISED;
        add_byte(bytes, UPS);
        outcome found = add_values(bytes, row, 0, there->keys, there->kinds);
        add_byte(bytes, (unsigned)operation_count);
        for (Py_ssize_t place = 0; found == DONE && place < operation_count; place++) {
            const unsigned char *operation = operations + 2 * place;
            add_bytes(bytes, operation, 2);
            found = add_value(bytes, item_of(row, there->keys + place), operation[0] == SET ? there->kinds[operation[1]] : INT);
        }
        if (found != DONE)
            return found;
    }
    return DONE;
}

/* _pack_upserts(form, rows): the bytes of upserts of one form. */
static PyObject *pack_upserts(PyObject *self, PyObject *const *args, Py_ssize_t count)
{
    if (count != 2 || !PyBytes_CheckExact(args[0]) || !PyList_CheckExact(args[1])) {
        PyErr_SetString(PyExc_TypeError, "_pack_upserts takes a form and a list of rows");
        return NULL;
    }
    if (!is_batch(args[1]))
        return Py_NewRef(Py_None);
    PyObject *given = PyTuple_Pack(2, args[0], args[1]);
    PyObject *found = given == NULL ? NULL : packed(self, of_upsert_rows, given);
    Py_XDECREF(given);
    return found;
}

/* _pack_columns(count, form, columns): the bytes of changes that are given by columns. */
static PyObject *pack_columns(PyObject *self, PyObject *const *args, Py_ssize_t count)
{
    if (count != 3 || !PyLong_CheckExact(args[0]) || !PyBytes_CheckExact(args[1]) || !PyList_CheckExact(args[2])) {
        PyErr_SetString(PyExc_TypeError, "_pack_columns takes a number, a form and a list of columns");
        return NULL;
    }
    PyObject *given = PyTuple_Pack(3, args[0], args[1], args[2]);
    PyObject *found = given == NULL ? NULL : packed(self, of_columns, given);
    Py_XDECREF(given);
    return found;
}

/* ---- gets, pages and sums ---- */

/* The row of a key, or None. NULL with OTHER is for the plain class. */
static PyObject *row_of(caller *self, PyObject *const *key, Py_ssize_t count, outcome *found)
{
    tree there;
    bytes_in_room bytes;
    reader reply;
    PyObject *row = NULL;
    *found = begin_call(self);
    if (*found != DONE)
        return NULL;
    PyObject *description = is_ready(self) ? description_of(self, NULL) : NULL;
    *found = OTHER;
    if (described(description, &there) && count == there.keys) {
        *found = taken(self, &bytes) && has_room(&bytes, HEADER_LENGTH + (size_t)count * MOST_VALUE_LENGTH) ? DONE : RAISED;
        if (*found == DONE)
            begin(&bytes, 1);
        for (Py_ssize_t place = 0; *found == DONE && place < count; place++)
            *found = add_value(&bytes, key[place], there.kinds[place]);
        if (*found == DONE)
            *found = called(self, GET, &bytes, 0);
        if (*found == DONE)
            *found = read_reply(self, &bytes, &reply);
        if (*found == DONE) {
            row = reply.at == reply.end ? Py_NewRef(Py_None) : next_tuple(&reply, 0, there.columns, there.kinds);
            *found = row == NULL ? RAISED : DONE;
        }
        kept(self, &bytes);
    }
    Py_XDECREF(description);
    end_call(self);
    return row;
}

static PyObject *call_get(PyObject *self, PyObject *const *args, Py_ssize_t count, PyObject *names)
{
    outcome found = OTHER;
    PyObject *row = names == NULL ? row_of((caller *)self, args, count, &found) : NULL;
    return found == OTHER ? by_python(self, "get", args, count, names) : row;
}

/* The bound of the first values of a key, or that directly after the row of a whole one. */
static outcome add_bound(bytes_in_room *bytes, PyObject *values, const tree *there, unsigned form)
{
    if (!has_room(bytes, 2))
        return RAISED;
    if (values == NULL || values == Py_None) {
        add_byte(bytes, NO_BOUND);
        return DONE;
    }
    const Py_ssize_t count = is_sequence(values) ? length_of(values) : 0;
    if (count < (form == AFTER ? there->keys : 1) || count > there->keys)
        return OTHER;
    add_byte(bytes, form);
    if (form == PREFIX)
        add_byte(bytes, (unsigned)count);
    return add_values(bytes, values, 0, count, there->kinds);
}

/* Begins a page or sums: the number of the header, and the name of the tree. */
static outcome begin_range(bytes_in_room *bytes, const tree *there, uint64_t number)
{
    if (!has_room(bytes, HEADER_LENGTH + there->name_length))
        return RAISED;
    begin(bytes, number);
    add_bytes(bytes, there->name, there->name_length);
    return DONE;
}

/* The most rows of a page, by what is given as a limit. */
static outcome limit_of(PyObject *given, uint32_t *found)
{
    *found = MOST_ROWS;
    if (given == NULL || given == Py_None)
        return DONE;
    int overflow;
    const long long number = PyLong_CheckExact(given) ? PyLong_AsLongLongAndOverflow(given, &overflow) : -1;
    if (number < 0 || number > (long long)MOST_ROWS)
        return OTHER;
    *found = (uint32_t)number;
    return DONE;
}

/* Puts the arguments of a call into their places. Whether they have the number and the names that they may have. The names of a call are interned. */
static int are_placed(PyObject *const *args, Py_ssize_t count, PyObject *names, PyObject *const *known, Py_ssize_t most, PyObject **found)
{
    if (count > most)
        return 0;
    for (Py_ssize_t place = 0; place < most; place++)
        found[place] = place < count ? args[place] : NULL;
    for (Py_ssize_t number = 0; names != NULL && number < PyTuple_Size(names); number++) {
        Py_ssize_t place = 0;
        while (place < most && known[place] != PyTuple_GetItem(names, number))
            place++;
        if (place == most || found[place] != NULL)
            return 0;
        found[place] = args[count + number];
    }
    return 1;
}

static int is_given(PyObject *argument)
{
    return argument != NULL && argument != Py_None;
}

/* The two bounds of a page, which begins directly after a row, or with the newest first directly before one: the whole key of that row is the upper bound. */
static outcome add_bounds(bytes_in_room *bytes, PyObject *const given[6], const tree *there, int newest_first)
{
    PyObject *start = given[1], *stop = given[2], *after = given[4];
    outcome found;
    if (!is_given(after)) {
        found = add_bound(bytes, start, there, PREFIX);
        return found == DONE ? add_bound(bytes, stop, there, PREFIX) : found;
    }
    /* Which of two bounds is the narrower one is found out by the plain class. */
    if (is_given(newest_first ? stop : start) || !is_sequence(after) || length_of(after) != there->keys)
        return OTHER;
    found = newest_first ? add_bound(bytes, start, there, PREFIX) : add_bound(bytes, after, there, AFTER);
    return found == DONE ? add_bound(bytes, newest_first ? after : stop, there, PREFIX) : found;
}

/* The rows of a scan, or their columns. NULL with OTHER is for the plain class. */
static PyObject *scanned(caller *self, PyObject *const given[6], int are_columns, outcome *found)
{
    PyObject *rows = NULL;
    const int newest_first = given[5] == Py_True;
    uint32_t limit;
    tree there;
    bytes_in_room bytes;
    reader reply;
    *found = OTHER;
    if (limit_of(given[3], &limit) != DONE || (given[5] != NULL && !newest_first && given[5] != Py_False))
        return NULL;
    *found = begin_call(self);
    if (*found != DONE)
        return NULL;
    PyObject *description = is_ready(self) ? description_of(self, given[0]) : NULL;
    *found = OTHER;
    if (described(description, &there)) {
        *found = taken(self, &bytes) ? begin_range(&bytes, &there, limit) : RAISED;
        if (*found == DONE)
            *found = add_bounds(&bytes, given, &there, newest_first);
        if (*found == DONE)
            *found = called(self, newest_first ? LAST_PAGE : PAGE, &bytes, limit >= MUCH_READ);
        if (*found == DONE)
            *found = read_reply(self, &bytes, &reply);
        if (*found == DONE) {
            rows = are_columns ? as_columns(reply, &there) : listed(reply, there.columns, there.kinds, 0);
            *found = rows == NULL ? RAISED : DONE;
        }
        kept(self, &bytes);
    } else if (PyErr_Occurred()) {
        *found = RAISED;
    }
    Py_XDECREF(description);
    end_call(self);
    return rows;
}

static int have_count(Py_ssize_t count, Py_ssize_t wanted)
{
    if (count != wanted)
        PyErr_Format(PyExc_TypeError, "%zd arguments are taken, and not %zd", wanted, count);
    return count == wanted;
}

/* Reads a page: at most as many rows as the limit, the first ones after a key, or of all if it is None. */
static outcome read_page(caller *self, bytes_in_room *bytes, const tree *there, uint32_t limit, PyObject *after, reader *reply)
{
    outcome found = begin_range(bytes, there, limit);
    if (found == DONE)
        found = add_bound(bytes, after, there, AFTER);
    if (found == DONE)
        found = add_bound(bytes, Py_None, there, NO_BOUND);
    if (found == DONE)
        found = called(self, PAGE, bytes, limit >= MUCH_READ);
    return found == DONE ? read_reply(self, bytes, reply) : found;
}

/* The changes that put the rows of a page, as bytes, and where the last of its rows begins. */
static PyObject *puts_of_page(reader reply, const tree *there, reader *last)
{
    const Py_ssize_t count = counted(reply, there);
    if (count < 0)
        return not_of_layout();
    const size_t length = HEADER_LENGTH + (size_t)count + (size_t)(reply.end - reply.at);
    PyObject *found = PyBytes_FromStringAndSize(NULL, (Py_ssize_t)length);
    if (found == NULL)
        return NULL;
    bytes_in_room puts = {(unsigned char *)PyBytes_AsString(found), 0, length};
    begin(&puts, (uint64_t)count);
    while (reply.at < reply.end) {
        *last = reply;
        for (Py_ssize_t place = 0; place < there->columns; place++) {
            size_t length_of_text = 0;
            const unsigned kind = there->kinds[place];
            if (kind == INT || kind == FLAG)
                next_bytes(&reply, kind == INT ? 8 : 1);
            else
                next_text(&reply, &length_of_text);
        }
        add_byte(&puts, PUT);
        add_bytes(&puts, last->at, (size_t)(reply.at - last->at));
    }
    return found;
}

/* _puts_after(key, limit): the changes that put the first rows after a key, or the first ones of all, and the last of these rows. None if there are none. */
static PyObject *puts_after(PyObject *object, PyObject *const *args, Py_ssize_t count)
{
    caller *self = (caller *)object;
    tree there;
    bytes_in_room bytes;
    reader reply, last;
    uint32_t limit;
    PyObject *puts = NULL, *row = NULL;
    if (!have_count(count, 2))
        return NULL;
    outcome found = limit_of(args[1], &limit);
    if (found == DONE)
        found = begin_call(self);
    if (found != DONE)
        return found == OTHER ? Py_NewRef(Py_None) : NULL;
    PyObject *description = is_ready(self) ? description_of(self, NULL) : NULL;
    found = OTHER;
    if (described(description, &there)) {
        found = taken(self, &bytes) ? read_page(self, &bytes, &there, limit, args[0], &reply) : RAISED;
        if (found == DONE && reply.at == reply.end) {
            found = OTHER;
        } else if (found == DONE) {
            puts = puts_of_page(reply, &there, &last);
            row = puts == NULL ? NULL : next_tuple(&last, 0, there.columns, there.kinds);
            found = row == NULL ? RAISED : DONE;
        }
        kept(self, &bytes);
    }
    Py_XDECREF(description);
    end_call(self);
    if (found == DONE)
        return Py_BuildValue("(NN)", puts, row);
    Py_XDECREF(puts);
    return found == OTHER && !PyErr_Occurred() ? Py_NewRef(Py_None) : NULL;
}

static PyObject *call_scan(PyObject *self, PyObject *const *args, Py_ssize_t count, PyObject *names)
{
    PyObject *given[6], *rows = NULL;
    outcome found = OTHER;
    /* The order is given by its name alone. */
    if (count < 6 && are_placed(args, count, names, names_of_scan, 6, given))
        rows = scanned((caller *)self, given, 0, &found);
    return found == OTHER ? by_python(self, "scan", args, count, names) : rows;
}

/* The methods for the plain class take all arguments by their places, which are plain. They return None if the library refuses the call. */
static PyObject *none_if_other(PyObject *found, outcome ended)
{
    return ended == OTHER ? Py_NewRef(Py_None) : found;
}

static PyObject *rows_between(PyObject *self, PyObject *const *args, Py_ssize_t count)
{
    outcome found = OTHER;
    if (!have_count(count, 6))
        return NULL;
    PyObject *rows = scanned((caller *)self, args, 0, &found);
    return none_if_other(rows, found);
}

static PyObject *columns_between(PyObject *self, PyObject *const *args, Py_ssize_t count)
{
    outcome found = OTHER;
    if (!have_count(count, 6))
        return NULL;
    PyObject *columns = scanned((caller *)self, args, 1, &found);
    return none_if_other(columns, found);
}

static PyObject *summed(caller *self, PyObject *const given[5], outcome *ended)
{
    PyObject *groups = NULL, *description = NULL;
    tree there;
    bytes_in_room bytes;
    reader reply;
    int overflow;
    outcome found = *ended = begin_call(self);
    if (found != DONE)
        return NULL;
    if (is_ready(self) && given[0] != NULL)
        description = description_of(self, given[0]);
    found = OTHER;
    const int are_there = described(description, &there) && given[1] != NULL && given[2] != NULL;
    if (are_there && PyLong_CheckExact(given[1]) && PyUnicode_CheckExact(given[2])) {
        const long long grouped = PyLong_AsLongLongAndOverflow(given[1], &overflow);
        if (grouped >= 0 && grouped <= there.keys) {
            found = taken(self, &bytes) ? begin_range(&bytes, &there, (uint64_t)grouped) : RAISED;
            if (found == DONE)
                found = has_room(&bytes, MOST_VALUE_LENGTH) ? add_value(&bytes, given[2], TEXT) : RAISED;
            for (int place = 3; found == DONE && place <= 4; place++)
                found = add_bound(&bytes, given[place], &there, PREFIX);
            if (found == DONE)
                found = called(self, SUMS, &bytes, 1);
            if (found == DONE)
                found = read_reply(self, &bytes, &reply);
            if (found == DONE) {
                groups = listed(reply, (Py_ssize_t)grouped, there.kinds, 1);
                found = groups == NULL ? RAISED : DONE;
            }
            kept(self, &bytes);
        }
    } else if (PyErr_Occurred()) {
        found = RAISED;
    }
    Py_XDECREF(description);
    end_call(self);
    *ended = found;
    return groups;
}

static PyObject *call_sums(PyObject *self, PyObject *const *args, Py_ssize_t count, PyObject *names)
{
    PyObject *given[5], *groups = NULL;
    outcome found = OTHER;
    if (are_placed(args, count, names, names_of_sums, 5, given))
        groups = summed((caller *)self, given, &found);
    return found == OTHER ? by_python(self, "sums", args, count, names) : groups;
}

static PyObject *groups_between(PyObject *self, PyObject *const *args, Py_ssize_t count)
{
    outcome found = OTHER;
    if (!have_count(count, 5))
        return NULL;
    PyObject *groups = summed((caller *)self, args, &found);
    return none_if_other(groups, found);
}

/* ---- scripts ---- */

/* The places of the replies to the last script: of each its begin, its end, and whether its command was refused. */
static PyObject *places_of_replies(PyObject *object, PyObject *none)
{
    (void)none;
    caller *self = (caller *)object;
    if (self->session == NULL)
        return by_python(object, "_places", NULL, 0, NULL);
    const size_t count = self->reply_count(self->session);
    PyObject *places = PyList_New((Py_ssize_t)count);
    for (size_t number = 0; places != NULL && number < count; number++) {
        betable_reply_place found = {0, 0, BETABLE_READ};
        self->reply(self->session, number, &found);
        PyObject *is_refused = found.kind == BETABLE_COMMAND_REFUSED ? Py_True : Py_False;
        PyObject *place = Py_BuildValue("(KKO)", (unsigned long long)found.offset, (unsigned long long)(found.offset + found.length), is_refused);
        if (place == NULL || PyList_SetItem(places, (Py_ssize_t)number, place) < 0)
            Py_CLEAR(places);
    }
    return places;
}

/* ---- requests on a table in a file ---- */

/* The payload of a reply, and its kind. */
static PyObject *payload_of_reply(const calls_on_file *calls, betable_file *file, unsigned *kind)
{
    unsigned char head[FRAME_HEAD];
    const size_t length = calls->length(file);
    if (calls->copy(file, 0, head, FRAME_HEAD) < FRAME_HEAD || memcmp(head, FRAME_MAGIC, MAGIC_LENGTH) != 0 ||
        number_at(head + MAGIC_LENGTH) != length - FRAME_HEAD) {
        PyErr_SetString(PyExc_RuntimeError, "libbt_c.so is of another version than this package");
        return NULL;
    }
    PyObject *payload = PyBytes_FromStringAndSize(NULL, (Py_ssize_t)(length - FRAME_HEAD));
    if (payload != NULL)
        calls->copy(file, FRAME_HEAD, (unsigned char *)PyBytes_AsString(payload), length - FRAME_HEAD);
    *kind = head[FRAME_HEAD - 1];
    return payload;
}

/* exchange(file, kind, payload): makes a request, while other threads run. The status, errno after it, the number of checkpoints that were made, why the last one
 * that was due was not, and the kind and the payload of the reply, which has none after a call that failed. The calls of the library are the bytes `of`. */
static PyObject *exchange(PyObject *of, PyObject *const *args, Py_ssize_t count)
{
    calls_on_file calls;
    Py_buffer handle;
    char *given;
    Py_ssize_t length;
    if (!have_count(count, 3) || PyBytes_AsStringAndSize(args[2], &given, &length) < 0)
        return NULL;
    const unsigned long kind = PyLong_AsUnsignedLong(args[1]);
    if (PyErr_Occurred() || PyObject_GetBuffer(args[0], &handle, PyBUF_WRITABLE) < 0)
        return NULL;
    bytes_in_room frame = {PyMem_Malloc(FRAME_HEAD + (size_t)length), 0, FRAME_HEAD + (size_t)length};
    if (frame.at == NULL) {
        PyBuffer_Release(&handle);
        return PyErr_NoMemory();
    }
    add_bytes(&frame, FRAME_MAGIC, MAGIC_LENGTH);
    add_number(&frame, (uint64_t)length, 8);
    add_byte(&frame, (unsigned)kind);
    add_bytes(&frame, given, (size_t)length);
    memcpy(&calls, PyBytes_AsString(of), sizeof calls);
    betable_file *file = handle.buf;
    betable_status status;
    int fault;
    Py_BEGIN_ALLOW_THREADS
    status = calls.run(file, frame.at, frame.length);
    fault = errno;
    Py_END_ALLOW_THREADS
    PyMem_Free(frame.at);
    const Py_ssize_t checkpoints = (Py_ssize_t)calls.checkpoint_count(file);
    const int checkpoint_fault = calls.checkpoint_fault(file);
    unsigned kind_of_reply = 0;
    PyObject *payload = status == BETABLE_DONE ? payload_of_reply(&calls, file, &kind_of_reply) : PyBytes_FromStringAndSize(NULL, 0);
    PyBuffer_Release(&handle);
    return payload == NULL ? NULL : Py_BuildValue("IiniIN", (unsigned)status, fault, checkpoints, checkpoint_fault, kind_of_reply, payload);
}

/* exchange_by(addresses): the function `exchange` of these calls of the library, in the order of FILE_CALLS. */
static PyObject *exchange_by(PyObject *module, PyObject *addresses)
{
    (void)module;
    static PyMethodDef function = {"exchange", FAST(exchange), METH_FASTCALL, "Makes a request on the table in a file."};
    uintptr_t found[FILE_CALL_COUNT];
    if (!PyTuple_Check(addresses) || PyTuple_Size(addresses) != FILE_CALL_COUNT) {
        PyErr_SetString(PyExc_TypeError, "exchange_by takes the addresses of FILE_CALLS");
        return NULL;
    }
    for (int place = 0; place < FILE_CALL_COUNT; place++)
        found[place] = (uintptr_t)PyLong_AsVoidPtr(PyTuple_GetItem(addresses, place));
    if (PyErr_Occurred())
        return NULL;
    const calls_on_file calls = {(run_call *)found[0], (file_length_call *)found[1], (file_copy_call *)found[2], (checkpoint_count_call *)found[3],
                                 (checkpoint_fault_call *)found[4]};
    PyObject *of = PyBytes_FromStringAndSize((const char *)&calls, sizeof calls);
    PyObject *made = of == NULL ? NULL : PyCFunction_NewEx(&function, of, NULL);
    Py_XDECREF(of);
    return made;
}

/* ---- the types ---- */

static PyObject *enter(PyObject *object, PyObject *none)
{
    (void)none;
    call_lock *self = (call_lock *)object;
    if (!is_entered(self))
        return NULL;
    if (self->is_taken) {
        leave_lock(self);
        PyErr_SetString(PyExc_RuntimeError, self->mutex == NULL ? "the session is in a call, which another thread has just begun: one call at a time may use it"
                                                                : "the table is in a call of this thread");
        return NULL;
    }
    self->is_taken = 1;
    return Py_NewRef(object);
}

static PyObject *leave(PyObject *object, PyObject *const *args, Py_ssize_t count)
{
    (void)args;
    (void)count;
    ((call_lock *)object)->is_taken = 0;
    leave_lock((call_lock *)object);
    Py_RETURN_NONE;
}

/* Lock(waits): whether it has a mutex. */
static PyObject *new_lock(PyTypeObject *type, PyObject *args, PyObject *named)
{
    (void)named;
    int waits = 0;
    if (!PyArg_ParseTuple(args, "|p", &waits))
        return NULL;
    call_lock *made = (call_lock *)PyType_GenericAlloc(type, 0);
    if (made != NULL && waits && (made->mutex = PyThread_allocate_lock()) == NULL) {
        Py_CLEAR(made);
        PyErr_NoMemory();
    }
    return (PyObject *)made;
}

static PyObject *new_hold(PyObject *lock, PyObject *none)
{
    (void)none;
    hold *made = (hold *)PyType_GenericAlloc((PyTypeObject *)hold_type, 0);
    if (made != NULL)
        made->lock = (call_lock *)Py_NewRef(lock);
    return (PyObject *)made;
}

static PyObject *enter_hold(PyObject *object, PyObject *none)
{
    (void)none;
    return is_entered(((hold *)object)->lock) ? Py_NewRef(object) : NULL;
}

static PyObject *leave_hold(PyObject *object, PyObject *const *args, Py_ssize_t count)
{
    (void)args;
    (void)count;
    leave_lock(((hold *)object)->lock);
    Py_RETURN_NONE;
}

static void dealloc_hold(PyObject *object)
{
    PyTypeObject *type = Py_TYPE(object);
    Py_XDECREF((PyObject *)((hold *)object)->lock);
    ((freefunc)PyType_GetSlot(type, Py_tp_free))(object);
    Py_DECREF(type);
}

static PyObject *locked(PyObject *object, PyObject *none)
{
    (void)none;
    return PyBool_FromLong(((call_lock *)object)->is_taken);
}

static void dealloc_lock(PyObject *object)
{
    PyTypeObject *type = Py_TYPE(object);
    if (((call_lock *)object)->mutex != NULL)
        PyThread_free_lock(((call_lock *)object)->mutex);
    ((freefunc)PyType_GetSlot(type, Py_tp_free))(object);
    Py_DECREF(type);
}

/* _connect(owner, address, addresses, lock): the session, the calls in the order of CALLS, and the lock of the session. With None as the addresses, which is
 * for what has `_ask`, the first three are not looked at. */
static PyObject *connect(PyObject *object, PyObject *const *args, Py_ssize_t count)
{
    caller *self = (caller *)object;
    uintptr_t found[CALL_COUNT] = {0};
    const int has_library = count == 4 && PyTuple_Check(args[2]) && PyTuple_Size(args[2]) == CALL_COUNT;
    if (count != 4 || !(has_library || args[2] == Py_None) || (PyObject *)Py_TYPE(args[3]) != lock_type) {
        PyErr_SetString(PyExc_TypeError, "_connect takes the owner of a session, its address, the addresses of CALLS, and a lock");
        return NULL;
    }
    betable_session *session = has_library ? PyLong_AsVoidPtr(args[1]) : NULL;
    for (int place = 0; has_library && place < CALL_COUNT; place++)
        found[place] = (uintptr_t)PyLong_AsVoidPtr(PyTuple_GetItem(args[2], place));
    PyObject *shapes = PyErr_Occurred() ? NULL : PyDict_New();
    if (shapes == NULL)
        return NULL;
    PyObject *owner = self->owner, *earlier = self->shapes, *lock = (PyObject *)self->lock;
    self->owner = Py_NewRef(args[0]);
    self->lock = (call_lock *)Py_NewRef(args[3]);
    self->session = session;
    self->shapes = shapes;
    for (int place = 0; place < PACKED_CALL_COUNT; place++)
        self->calls[place] = (packed_call *)found[place];
    self->length = (length_call *)found[5];
    self->copy = (copy_call *)found[6];
    self->reply_count = (length_call *)found[7];
    self->reply = (reply_call *)found[8];
    Py_XDECREF(owner);
    Py_XDECREF(earlier);
    Py_XDECREF(lock);
    Py_RETURN_NONE;
}

/* _know(trees): the descriptions of all trees by their names. */
static PyObject *know(PyObject *object, PyObject *trees)
{
    caller *self = (caller *)object;
    if (!PyDict_CheckExact(trees) || self->shapes == NULL) {
        PyErr_SetString(PyExc_TypeError, "_know takes a dict, after _connect");
        return NULL;
    }
    PyObject *name = PyUnicode_FromString("primary");
    if (name == NULL)
        return NULL;
    PyObject *primary = PyDict_GetItemWithError(trees, name), *earlier = self->trees, *before = self->primary;
    Py_DECREF(name);
    if (primary == NULL && PyErr_Occurred())
        return NULL;
    Py_XINCREF(primary);
    self->primary = primary;
    self->trees = Py_NewRef(trees);
    PyDict_Clear(self->shapes);
    Py_XDECREF(earlier);
    Py_XDECREF(before);
    Py_RETURN_NONE;
}

static void dealloc(PyObject *object)
{
    caller *self = (caller *)object;
    PyTypeObject *type = Py_TYPE(object);
    Py_XDECREF(self->owner);
    Py_XDECREF((PyObject *)self->lock);
    Py_XDECREF(self->asked);
    Py_XDECREF(self->trees);
    Py_XDECREF(self->primary);
    Py_XDECREF(self->shapes);
    PyMem_Free(self->room.at);
    ((freefunc)PyType_GetSlot(type, Py_tp_free))(object);
    Py_DECREF(type);
}

static PyMethodDef methods[] = {
    {"put", FAST(call_put), METH_FASTCALL | METH_KEYWORDS, "put($self, rows, most=65536)\n--\n\nPuts rows, and returns their number."},
    {"batch", FAST(call_batch), METH_FASTCALL | METH_KEYWORDS,
     "batch($self, messages, most=65536)\n--\n\nApplies messages in order, and returns their number."},
    {"get", FAST(call_get), METH_FASTCALL | METH_KEYWORDS, "get($self, *key)\n--\n\nThe row of a key, or None."},
    {"scan", FAST(call_scan), METH_FASTCALL | METH_KEYWORDS,
     "scan($self, tree='primary', start=None, stop=None, limit=None, after=None, *, newest_first=False)\n--\n\n"
     "The rows of a tree in ascending order of their keys, from those that begin with the values `start` to before those that begin with `stop`, directly\n"
     "after the row of the key `after`, and at most as many as the limit. With `newest_first` they are in descending order: the last ones of that range,\n"
     "directly before the row of `after`."},
    {"sums", FAST(call_sums), METH_FASTCALL | METH_KEYWORDS,
     "sums($self, tree, columns, column, start=None, stop=None)\n--\n\n"
     "For each group of rows that are equal in the tree's first columns: their number, the sum of a column, and the values of those columns. By 0 columns all\n"
     "rows are one group, even if there are none. Without a name for the column, as \"\", the sums are 0."},
    {"_pack_rows", pack_rows, METH_O, "The bytes of the changes that put rows, or None."},
    {"_pack_messages", pack_messages, METH_O, "The bytes of the changes that messages are, or None."},
    {"_pack_upserts", FAST(pack_upserts), METH_FASTCALL, "The bytes of upserts of one form, of the form and their rows, or None."},
    {"_pack_columns", FAST(pack_columns), METH_FASTCALL, "The bytes of changes by columns, of their number, their form and the columns, or None."},
    {"_rows_between", FAST(rows_between), METH_FASTCALL, "The rows of a scan, or None."},
    {"_columns_between", FAST(columns_between), METH_FASTCALL, "The columns of the rows of a scan, of ints their bytes, and lists of other values, or None."},
    {"_puts_after", FAST(puts_after), METH_FASTCALL, "The changes that put the first rows after a key, and the last of these rows, or None."},
    {"_groups_between", FAST(groups_between), METH_FASTCALL, "The groups of a range, or None."},
    {"_places", places_of_replies, METH_NOARGS, "The places of the replies to the last script."},
    {"_connect", FAST(connect), METH_FASTCALL, "Connects it with a session, by addresses."},
    {"_know", know, METH_O, "Takes the descriptions of all trees."},
    {NULL, NULL, 0, NULL},
};

static PyType_Slot slots[] = {
    {Py_tp_doc, (void *)(uintptr_t) "The calls of a session that go by packed bytes."},
    {Py_tp_dealloc, dealloc},
    {Py_tp_methods, methods},
    {0, NULL},
};

static PyMethodDef methods_of_lock[] = {
    {"__enter__", enter, METH_NOARGS, "Takes the lock."},
    {"__exit__", FAST(leave), METH_FASTCALL, "Frees the lock."},
    {"locked", locked, METH_NOARGS, "Whether the lock is taken."},
    {"hold", new_hold, METH_NOARGS, "A context in which other threads wait."},
    {NULL, NULL, 0, NULL},
};

static PyType_Slot slots_of_lock[] = {
    {Py_tp_doc, (void *)(uintptr_t) "The lock of a session, as that of threading, which does not wait unless it is made so."},
    {Py_tp_new, new_lock},
    {Py_tp_dealloc, dealloc_lock},
    {Py_tp_methods, methods_of_lock},
    {0, NULL},
};

static PyMethodDef methods_of_hold[] = {
    {"__enter__", enter_hold, METH_NOARGS, "Waits until no other thread has the lock."},
    {"__exit__", FAST(leave_hold), METH_FASTCALL, "Lets other threads go on."},
    {NULL, NULL, 0, NULL},
};

static PyType_Slot slots_of_hold[] = {
    {Py_tp_doc, (void *)(uintptr_t) "A context in which the calls of other threads wait."},
    {Py_tp_dealloc, dealloc_hold},
    {Py_tp_methods, methods_of_hold},
    {0, NULL},
};

static PyType_Spec spec_of_lock = {"betable._packed.Lock", sizeof(call_lock), 0, Py_TPFLAGS_DEFAULT, slots_of_lock};
static PyType_Spec spec_of_hold = {"betable._packed.Hold", sizeof(hold), 0, Py_TPFLAGS_DEFAULT, slots_of_hold};
static PyType_Spec spec = {"betable._packed.Caller", sizeof(caller), 0, Py_TPFLAGS_DEFAULT | Py_TPFLAGS_BASETYPE, slots};

/* ---- the module ---- */

/* prepare(plain, message): the class whose methods take what is not taken here, and that of messages. */
static PyObject *prepare(PyObject *module, PyObject *const *args, Py_ssize_t count)
{
    (void)module;
    if (count != 2) {
        PyErr_SetString(PyExc_TypeError, "prepare takes two classes");
        return NULL;
    }
    PyObject *earlier = plain, *before = message_type;
    plain = Py_NewRef(args[0]);
    message_type = Py_NewRef(args[1]);
    Py_XDECREF(earlier);
    Py_XDECREF(before);
    Py_RETURN_NONE;
}

static PyMethodDef functions[] = {
    {"prepare", FAST(prepare), METH_FASTCALL, "Takes the class whose methods take what is not taken here, and that of messages."},
    {"exchange_by", exchange_by, METH_O, "The function that makes requests on the table in a file by the calls with these addresses."},
    {NULL, NULL, 0, NULL},
};

static struct PyModuleDef definition = {
    PyModuleDef_HEAD_INIT, "_packed", "The calls of a session on packed bytes, in C.", -1, functions, NULL, NULL, NULL, NULL,
};

static int are_interned(const char *const *given, PyObject **found, int count)
{
    for (int place = 0; place < count; place++) {
        found[place] = PyUnicode_InternFromString(given[place]);
        if (found[place] == NULL)
            return 0;
    }
    return 1;
}

PyMODINIT_FUNC PyInit__packed(void)
{
    static const char *const words[] = {"word", "shape", "values", "put", "del", "ups", "_plan", "_raise_out_of_memory", "_ask"};
    static const char *const of_scan[] = {"tree", "start", "stop", "limit", "after", "newest_first"};
    static const char *const of_sums[] = {"tree", "columns", "column", "start", "stop"};
    PyObject *interned[9];
    if (!are_interned(words, interned, 9) || !are_interned(of_scan, names_of_scan, 6) || !are_interned(of_sums, names_of_sums, 5))
        return NULL;
    word_name = interned[0];
    shape_name = interned[1];
    values_name = interned[2];
    put_word = interned[3];
    del_word = interned[4];
    ups_word = interned[5];
    plan_name = interned[6];
    out_of_memory_name = interned[7];
    ask_name = interned[8];
    PyObject *module = PyModule_Create(&definition), *type = PyType_FromSpec(&spec);
    lock_type = PyType_FromSpec(&spec_of_lock);
    hold_type = PyType_FromSpec(&spec_of_hold);
    PyObject *calls =
        Py_BuildValue("(sssssssss)", "betable_apply", "betable_get", "betable_page", "betable_last_page", "betable_sums", "betable_replies_length",
                      "betable_copy_replies", "betable_reply_count", "betable_reply");
    PyObject *file_calls = Py_BuildValue("(sssss)", "betable_file_run", "betable_file_replies_length", "betable_file_copy_replies",
                                         "betable_file_checkpoint_count", "betable_file_checkpoint_fault");
    /* With no object to add, an exception is set, as is wanted. */
    if (module != NULL && (hold_type == NULL || PyModule_AddObjectRef(module, "Caller", type) < 0 || PyModule_AddObjectRef(module, "Lock", lock_type) < 0 ||
                           PyModule_AddObjectRef(module, "CALLS", calls) < 0 || PyModule_AddObjectRef(module, "FILE_CALLS", file_calls) < 0))
        Py_CLEAR(module);
    Py_XDECREF(type);
    Py_XDECREF(calls);
    Py_XDECREF(file_calls);
    return module;
}
