// c_calls [ROWS [ROUNDS]]: the cost of one call from C to betable through include/betable.h, and to SQLite and LMDB through their own interfaces: puts of
// one row, batches of a hundred, gets of a row, pages of a hundred rows from a key on, sums of the rows of a city, and batches of 65,536 puts. A row is an
// int, a city and a quantity. Rows are in C variables before and after a call. So a call of betable includes packing its bytes and unpacking its reply, a call
// of SQLite its bindings and columns, and a call of LMDB the packing of key and value. The calls of betable are measured on packed bytes and as scripts; a page
// is always packed. Each round gives each engine new, empty tables, and begins with a different engine. The results of all engines are compared. The program
// prints the processor time of a call of betable on packed bytes, and the ratio of the others to it in the same round; both are medians of all rounds.
//
// betable is in memory, SQLite is ':memory:' without journal, and LMDB is on a file in memory, written in place and never synced. A put of one row is a
// batch, a statement outside of a transaction, and a transaction; a batch of a hundred puts is a batch, and a transaction. Sums are over an index on the
// city that includes the quantity. It is created when all rows are in the table, and its creation is not counted. Batches of 65,536 puts, the most that a batch
// has, go into a new table without index, as many as there are rows for.
#define _GNU_SOURCE
#include <lmdb.h>
#include <sqlite3.h>
#include <stdint.h>
#include <stdio.h>
#include <stdlib.h>
#include <string.h>
#include <sys/mman.h>
#include <time.h>
#include <unistd.h>

#include "betable.h"

enum { CITIES = 1000, BATCH = 100, LARGEST_BATCH = 65536, ENGINES = 4, STEPS = 6, PAGE = 100, MOST_ROUNDS = 99 };

typedef struct {
  int64_t id;
  char city[16];
  int64_t qty;
} Row;

typedef struct {
  const char *name;
  void (*open)(void);
  void (*put)(const Row *rows, size_t count);
  void (*make_index)(void);
  int64_t (*get)(int64_t id);                                  // the quantity plus the length of the city
  int64_t (*page)(int64_t id);                                 // the sum of what get returns for the first hundred rows from this id on
  int64_t (*sum)(const char *city, const char *next_city);     // the total plus the number of rows
  void (*close)(void);
} Engine;

static void fail(const char *why) {
  fprintf(stderr, "c_calls: %s\n", why);
  exit(1);
}

// ---- betable, as scripts ----

static betable_session session = BETABLE_CLOSED;
static char script[48 * LARGEST_BATCH], reply[1 << 13];

static size_t run(size_t length) {
  if (betable_run(&session, (const unsigned char *)script, length) != BETABLE_DONE || betable_refused_count(&session) > 0) fail("betable refused a script");
  size_t count = betable_copy_replies(&session, 0, (unsigned char *)reply, sizeof reply - 1);
  reply[count] = 0;
  return count;
}

static void betable_begin(void) {
  if (betable_open(&session) != BETABLE_DONE) fail("betable does not open");
  run((size_t)sprintf(script, "table 16 1024 256 1 id:int city:text qty:int\n"));
}

static void script_put(const Row *rows, size_t count) {
  size_t at = (size_t)sprintf(script, "batch\n");
  for (size_t i = 0; i < count; i++) at += (size_t)sprintf(script + at, "put %lld,%s,%lld\n", (long long)rows[i].id, rows[i].city, (long long)rows[i].qty);
  run(at + (size_t)sprintf(script + at, "end\n"));
}

static void betable_index(void) { run((size_t)sprintf(script, "index by_city on city include qty\nbuild by_city 100000000\n")); }

static int64_t script_get(int64_t id) {
  long long found, qty;
  char city[16];
  run((size_t)sprintf(script, "get %lld\n", (long long)id));
  if (sscanf(reply, "row %lld,%15[^,],%lld", &found, city, &qty) != 3 || found != id) fail("betable has not the row");
  return qty + (int64_t)strlen(city);
}

static int64_t script_sum(const char *city, const char *next_city) {
  long long count, total;
  run((size_t)sprintf(script, "sums by_city 1 qty\nfrom %s\nto %s\ngo\n", city, next_city));
  if (sscanf(reply, "sum %lld %lld ", &count, &total) != 2) fail("betable has not the sum");
  return total + count;
}

static void betable_end(void) { betable_close(&session); }

// ---- betable, on packed bytes ----

static unsigned char packed[32 * LARGEST_BATCH], answer[1 << 13];
static betable_fault fault;

// The machine is little endian, as packed bytes are.
static unsigned char *add(unsigned char *at, const void *bytes, size_t count) {
  memcpy(at, bytes, count);
  return at + count;
}

static unsigned char *header(uint32_t number) { return add(add(packed, "BTV\1", 4), &number, 4); }

static size_t answered(betable_status status) {
  if (status != BETABLE_DONE) fail("betable refused packed bytes");
  return betable_copy_replies(&session, 0, answer, sizeof answer);
}

static void packed_put(const Row *rows, size_t count) {
  unsigned char *at = header((uint32_t)count);
  for (size_t i = 0; i < count; i++) {
    size_t length = strlen(rows[i].city);
    *at++ = 0;
    at = add(at, &rows[i].id, 8);
    *at++ = (unsigned char)length;
    at = add(add(at, rows[i].city, length), &rows[i].qty, 8);
  }
  if (betable_apply(&session, packed, (size_t)(at - packed), &fault) != BETABLE_DONE) fail("betable refused changes");
}

// The quantity plus the length of the city of the row here, and the place after it.
static int64_t unpacked(const unsigned char **at) {
  int64_t qty;
  size_t length = (*at)[8];
  memcpy(&qty, *at + 9 + length, 8);
  *at += 17 + length;
  return qty + (int64_t)length;
}

static int64_t packed_get(int64_t id) {
  size_t count = answered(betable_get(&session, packed, (size_t)(add(header(1), &id, 8) - packed), &fault));
  const unsigned char *at = answer + 4;
  if (count == 4 || memcmp(at, &id, 8) != 0) fail("betable has not the row");
  return unpacked(&at);
}

static int64_t packed_page(int64_t id) {
  unsigned char *at = add(add(header(PAGE), "\7primary\1\1", 10), &id, 8);
  *at++ = 0;
  size_t count = answered(betable_page(&session, packed, (size_t)(at - packed), &fault));
  int64_t total = 0;
  for (const unsigned char *row = answer + 4; row < answer + count;) total += unpacked(&row);
  return total;
}

static unsigned char *add_city(unsigned char *at, const char *city) {
  size_t length = strlen(city);
  at = add(at, "\1\1", 2);
  *at++ = (unsigned char)length;
  return add(at, city, length);
}

static int64_t packed_sum(const char *city, const char *next_city) {
  unsigned char *at = add_city(add_city(add(header(1), "\7by_city\3qty", 12), city), next_city);
  size_t count = answered(betable_sums(&session, packed, (size_t)(at - packed), &fault));
  if (count < 5 || count != 29 + (size_t)answer[4]) fail("betable has not the sum");
  int64_t rows, total;
  memcpy(&rows, answer + count - 24, 8);
  memcpy(&total, answer + count - 16, 8);
  return total + rows;
}

// ---- SQLite ----

static sqlite3 *db;
static sqlite3_stmt *sql_put, *sql_get, *sql_page, *sql_sum;

static void execute(const char *sql) {
  if (sqlite3_exec(db, sql, NULL, NULL, NULL) != SQLITE_OK) fail(sqlite3_errmsg(db));
}

static sqlite3_stmt *prepared(const char *sql) {
  sqlite3_stmt *statement;
  if (sqlite3_prepare_v3(db, sql, -1, SQLITE_PREPARE_PERSISTENT, &statement, NULL) != SQLITE_OK) fail(sqlite3_errmsg(db));
  return statement;
}

static void sqlite_begin(void) {
  if (sqlite3_open(":memory:", &db) != SQLITE_OK) fail("SQLite does not open");
  execute("PRAGMA journal_mode=OFF; PRAGMA synchronous=OFF; CREATE TABLE t(id INTEGER PRIMARY KEY, city TEXT NOT NULL, qty INTEGER NOT NULL)");
  sql_put = prepared("INSERT OR REPLACE INTO t VALUES(?,?,?)");
  sql_get = prepared("SELECT city,qty FROM t WHERE id=?");
  sql_page = prepared("SELECT city,qty FROM t WHERE id>=? ORDER BY id LIMIT 100");
  sql_sum = NULL;
}

static void sqlite_put(const Row *rows, size_t count) {
  if (count > 1) execute("BEGIN");
  for (size_t i = 0; i < count; i++) {
    sqlite3_bind_int64(sql_put, 1, rows[i].id);
    sqlite3_bind_text(sql_put, 2, rows[i].city, -1, SQLITE_STATIC);
    sqlite3_bind_int64(sql_put, 3, rows[i].qty);
    if (sqlite3_step(sql_put) != SQLITE_DONE || sqlite3_reset(sql_put) != SQLITE_OK) fail(sqlite3_errmsg(db));
  }
  if (count > 1) execute("COMMIT");
}

static void sqlite_index(void) {
  execute("CREATE INDEX by_city ON t(city,qty)");
  sql_sum = prepared("SELECT city,COUNT(*),SUM(qty) FROM t INDEXED BY by_city WHERE city>=? AND city<? GROUP BY city");
}

static int64_t sqlite_get(int64_t id) {
  sqlite3_bind_int64(sql_get, 1, id);
  if (sqlite3_step(sql_get) != SQLITE_ROW) fail("SQLite has not the row");
  char city[16];
  snprintf(city, sizeof city, "%s", (const char *)sqlite3_column_text(sql_get, 0));
  int64_t qty = sqlite3_column_int64(sql_get, 1);
  sqlite3_reset(sql_get);
  return qty + (int64_t)strlen(city);
}

static int64_t sqlite_page(int64_t id) {
  int64_t total = 0;
  sqlite3_bind_int64(sql_page, 1, id);
  while (sqlite3_step(sql_page) == SQLITE_ROW) {
    char city[16];
    snprintf(city, sizeof city, "%s", (const char *)sqlite3_column_text(sql_page, 0));
    total += sqlite3_column_int64(sql_page, 1) + (int64_t)strlen(city);
  }
  sqlite3_reset(sql_page);
  return total;
}

static int64_t sqlite_sum(const char *city, const char *next_city) {
  sqlite3_bind_text(sql_sum, 1, city, -1, SQLITE_STATIC);
  sqlite3_bind_text(sql_sum, 2, next_city, -1, SQLITE_STATIC);
  if (sqlite3_step(sql_sum) != SQLITE_ROW) fail("SQLite has not the sum");
  int64_t count = sqlite3_column_int64(sql_sum, 1), total = sqlite3_column_int64(sql_sum, 2);
  sqlite3_reset(sql_sum);
  return total + count;
}

static void sqlite_end(void) {
  sqlite3_finalize(sql_put), sqlite3_finalize(sql_get), sqlite3_finalize(sql_page), sqlite3_finalize(sql_sum);
  sqlite3_close(db);
}

// ---- LMDB ----

static MDB_env *env;
static MDB_dbi by_id, by_city;
static int file;

static void check(int code) {
  if (code) fail(mdb_strerror(code));
}

// Big-endian, so that keys are in the order of the numbers, which are not negative.
static void pack(uint64_t number, unsigned char *bytes) {
  for (int i = 0; i < 8; i++) bytes[i] = (unsigned char)(number >> (56 - 8 * i));
}

static void lmdb_begin(void) {
  char path[64];
  file = memfd_create("lmdb", 0);
  snprintf(path, sizeof path, "/proc/self/fd/%d", file);
  check(mdb_env_create(&env));
  check(mdb_env_set_mapsize(env, (size_t)4 << 30));
  check(mdb_env_set_maxdbs(env, 2));
  check(mdb_env_open(env, path, MDB_NOSUBDIR | MDB_NOLOCK | MDB_NOSYNC | MDB_NOMETASYNC | MDB_WRITEMAP | MDB_NOMEMINIT | MDB_NORDAHEAD, 0600));
  MDB_txn *transaction;
  check(mdb_txn_begin(env, NULL, 0, &transaction));
  check(mdb_dbi_open(transaction, "id", MDB_CREATE, &by_id));
  check(mdb_dbi_open(transaction, "city", MDB_CREATE, &by_city));
  check(mdb_txn_commit(transaction));
}

// A value is the quantity and the city.
static void lmdb_put(const Row *rows, size_t count) {
  MDB_txn *transaction;
  check(mdb_txn_begin(env, NULL, 0, &transaction));
  for (size_t i = 0; i < count; i++) {
    unsigned char id[8], packed[24];
    size_t length = strlen(rows[i].city);
    pack((uint64_t)rows[i].id, id);
    memcpy(packed, &rows[i].qty, 8);
    memcpy(packed + 8, rows[i].city, length);
    MDB_val key = {8, id}, value = {8 + length, packed};
    check(mdb_put(transaction, by_id, &key, &value, 0));
  }
  check(mdb_txn_commit(transaction));
}

// A key of the index is the city, a zero byte and the id; a value is the quantity.
static void lmdb_index(void) {
  MDB_txn *transaction;
  MDB_cursor *cursor;
  MDB_val key, value;
  check(mdb_txn_begin(env, NULL, 0, &transaction));
  check(mdb_cursor_open(transaction, by_id, &cursor));
  while (mdb_cursor_get(cursor, &key, &value, MDB_NEXT) == 0) {
    unsigned char entry[32];
    size_t length = value.mv_size - 8;
    memcpy(entry, (char *)value.mv_data + 8, length);
    entry[length] = 0;
    memcpy(entry + length + 1, key.mv_data, 8);
    MDB_val at = {length + 9, entry}, qty = {8, value.mv_data};
    check(mdb_put(transaction, by_city, &at, &qty, 0));
  }
  mdb_cursor_close(cursor);
  check(mdb_txn_commit(transaction));
}

static int64_t lmdb_get(int64_t id) {
  MDB_txn *transaction;
  unsigned char bytes[8];
  pack((uint64_t)id, bytes);
  MDB_val key = {8, bytes}, value;
  check(mdb_txn_begin(env, NULL, MDB_RDONLY, &transaction));
  check(mdb_get(transaction, by_id, &key, &value));
  int64_t qty;
  char city[16];
  memcpy(&qty, value.mv_data, 8);
  memcpy(city, (char *)value.mv_data + 8, value.mv_size - 8);
  city[value.mv_size - 8] = 0;
  mdb_txn_abort(transaction);
  return qty + (int64_t)strlen(city);
}

static int64_t lmdb_page(int64_t id) {
  MDB_txn *transaction;
  MDB_cursor *cursor;
  unsigned char bytes[8];
  int64_t total = 0;
  pack((uint64_t)id, bytes);
  MDB_val key = {8, bytes}, value;
  check(mdb_txn_begin(env, NULL, MDB_RDONLY, &transaction));
  check(mdb_cursor_open(transaction, by_id, &cursor));
  int code = mdb_cursor_get(cursor, &key, &value, MDB_SET_RANGE);
  for (int i = 0; i < PAGE && code == 0; i++, code = mdb_cursor_get(cursor, &key, &value, MDB_NEXT)) {
    int64_t qty;
    char city[16];
    memcpy(&qty, value.mv_data, 8);
    memcpy(city, (char *)value.mv_data + 8, value.mv_size - 8);
    city[value.mv_size - 8] = 0;
    total += qty + (int64_t)strlen(city);
  }
  mdb_cursor_close(cursor);
  mdb_txn_abort(transaction);
  return total;
}

static int64_t lmdb_sum(const char *city, const char *next_city) {
  MDB_txn *transaction;
  MDB_cursor *cursor;
  int64_t total = 0, count = 0;
  size_t length = strlen(next_city);
  check(mdb_txn_begin(env, NULL, MDB_RDONLY, &transaction));
  check(mdb_cursor_open(transaction, by_city, &cursor));
  MDB_val key = {strlen(city), (void *)(uintptr_t)city}, value;
  for (int code = mdb_cursor_get(cursor, &key, &value, MDB_SET_RANGE); code == 0; code = mdb_cursor_get(cursor, &key, &value, MDB_NEXT)) {
    if (memcmp(key.mv_data, next_city, length < key.mv_size ? length : key.mv_size) >= 0) break;
    int64_t qty;
    memcpy(&qty, value.mv_data, 8);
    total += qty, count++;
  }
  mdb_cursor_close(cursor);
  mdb_txn_abort(transaction);
  return total + count;
}

static void lmdb_end(void) {
  mdb_env_close(env);
  close(file);
}

// ---- the rounds ----

static const Engine ENGINE[ENGINES] = {
    {"betable", betable_begin, packed_put, betable_index, packed_get, packed_page, packed_sum, betable_end},
    {"as scripts", betable_begin, script_put, betable_index, script_get, packed_page, script_sum, betable_end},
    {"SQLite", sqlite_begin, sqlite_put, sqlite_index, sqlite_get, sqlite_page, sqlite_sum, sqlite_end},
    {"LMDB", lmdb_begin, lmdb_put, lmdb_index, lmdb_get, lmdb_page, lmdb_sum, lmdb_end},
};
static const char *const STEP[STEPS] = {"put of one row",         "batch of a hundred puts", "get of a row",
                                        "page of a hundred rows", "sums of a city",          "batch of 65,536 puts"};

static double processor_seconds(void) {
  struct timespec now;
  clock_gettime(CLOCK_PROCESS_CPUTIME_ID, &now);
  return (double)now.tv_sec + 1e-9 * (double)now.tv_nsec;
}

// Pseudo-random numbers, the same in each round.
static uint64_t next_number(uint64_t *state) {
  *state ^= *state << 13, *state ^= *state >> 7, *state ^= *state << 17;
  return *state;
}

static void name_city(size_t number, char *name) { sprintf(name, "city%04zu", number % 10000); }

// Runs all steps on one engine: the seconds of a call of each step, and the sum of all results.
static int64_t measure(const Engine *engine, const Row *rows, size_t count, double *seconds) {
  size_t half = count / 2, sums = count / 20;
  uint64_t state = 88172645463325252;
  int64_t answers = 0;
  double begin;
  engine->open();

  begin = processor_seconds();
  for (size_t i = 0; i < half; i++) engine->put(rows + i, 1);
  seconds[0] = (processor_seconds() - begin) / (double)half;

  begin = processor_seconds();
  for (size_t i = half; i < count; i += BATCH) engine->put(rows + i, BATCH);
  seconds[1] = (processor_seconds() - begin) / (double)((count - half) / BATCH);

  begin = processor_seconds();
  for (size_t i = 0; i < count; i++) answers += engine->get(rows[next_number(&state) % count].id);
  seconds[2] = (processor_seconds() - begin) / (double)count;

  begin = processor_seconds();
  for (size_t i = 0; i < count / 20; i++) answers += engine->page(rows[next_number(&state) % count].id);
  seconds[3] = (processor_seconds() - begin) / (double)(count / 20);

  engine->make_index();
  begin = processor_seconds();
  for (size_t i = 0; i < sums; i++) {
    char city[16], next_city[16];
    size_t number = next_number(&state) % CITIES;
    name_city(number, city), name_city(number + 1, next_city);
    answers += engine->sum(city, next_city);
  }
  seconds[4] = (processor_seconds() - begin) / (double)sums;
  engine->close();

  engine->open();
  size_t batches = count / LARGEST_BATCH;
  begin = processor_seconds();
  for (size_t i = 0; i < batches; i++) engine->put(rows + i * LARGEST_BATCH, LARGEST_BATCH);
  seconds[5] = (processor_seconds() - begin) / (double)batches;
  for (size_t i = 0; i < batches * LARGEST_BATCH; i += BATCH) answers += engine->get(rows[i].id);
  engine->close();
  return answers;
}

static int by_value(const void *one, const void *other) {
  double a = *(const double *)one, b = *(const double *)other;
  return (a > b) - (a < b);
}

static double middle(double *values, size_t count) {
  qsort(values, count, sizeof *values, by_value);
  return values[count / 2];
}

int main(int count, char **words) {
  size_t row_count = count > 1 ? strtoul(words[1], NULL, 10) : 200000, rounds = count > 2 ? strtoul(words[2], NULL, 10) : 7;
  if (row_count < LARGEST_BATCH || rounds < 1 || rounds > MOST_ROUNDS) fail("from 65,536 rows on, and 1 to 99 rounds");
  row_count -= row_count % (2 * BATCH);
  Row *rows = malloc(row_count * sizeof *rows);
  if (rows == NULL) fail("out of memory");
  for (size_t i = 0; i < row_count; i++) {
    // Different keys in random order.
    rows[i].id = (int64_t)((i * 2654435761u) % 4294967296u);
    name_city(i % CITIES, rows[i].city);
    rows[i].qty = (int64_t)(i * 48271 % 1000003);
  }
  static double own[STEPS][MOST_ROUNDS], ratio[ENGINES][STEPS][MOST_ROUNDS];
  for (size_t round = 0; round < rounds; round++) {
    double seconds[ENGINES][STEPS];
    int64_t answers[ENGINES];
    for (size_t turn = 0; turn < ENGINES; turn++) {
      size_t at = (round + turn) % ENGINES;
      answers[at] = measure(&ENGINE[at], rows, row_count, seconds[at]);
    }
    for (size_t at = 0; at < ENGINES; at++) {
      if (answers[at] != answers[0]) fail("the engines answer differently");
      for (size_t step = 0; step < STEPS; step++) ratio[at][step][round] = seconds[at][step] / seconds[0][step];
    }
    for (size_t step = 0; step < STEPS; step++) own[step][round] = 1e6 * seconds[0][step];
  }
  printf("%zu rows, the middle of %zu rounds\n\n| Call | betable |", row_count, rounds);
  for (size_t at = 1; at < ENGINES; at++) printf(" %s |", ENGINE[at].name);
  printf("\n|---|---|---|---|---|\n");
  for (size_t step = 0; step < STEPS; step++) {
    printf("| %s | %.2f µs |", STEP[step], middle(own[step], rounds));
    for (size_t at = 1; at < ENGINES; at++) printf(" %.2f |", middle(ratio[at][step], rounds));
    printf("\n");
  }
  free(rows);
  return 0;
}
