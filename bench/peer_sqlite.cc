// SQLite in memory, without journal: prepared statements, a transaction a batch. A key of one int is the rowid. An index is one of SQLite's,
// which the first step of building completes. SQLite doesn't report how many messages a batch sends to it.
#include <sqlite3.h>

#include <unordered_map>

#include "peer.h"

class Sqlite {
  const Table &table;
  sqlite3 *db = nullptr;
  sqlite3_stmt *put = nullptr, *insert = nullptr, *del = nullptr, *find = nullptr;
  std::unordered_map<std::string, sqlite3_stmt *> upserts;  // by operation and column
  std::unordered_map<std::string, sqlite3_stmt *> ranges;   // by the lengths of the bounds, and how rows are grouped
  std::deque<std::string> held;                             // texts of the last get
  struct Built {
    bool is_made = false;
    size_t left = 0;  // how many rows the steps to come are to read
  };
  std::vector<Built> built;  // of each index
  bool is_rowid = false;     // whether the key is

  void check(int code) {
    if (code != SQLITE_OK && code != SQLITE_DONE && code != SQLITE_ROW) fail(sqlite3_errmsg(db));
  }
  void execute(const std::string &sql) { check(sqlite3_exec(db, sql.c_str(), nullptr, nullptr, nullptr)); }
  sqlite3_stmt *prepare(const std::string &sql) {
    sqlite3_stmt *statement;
    check(sqlite3_prepare_v3(db, sql.c_str(), -1, SQLITE_PREPARE_PERSISTENT, &statement, nullptr));
    return statement;
  }
  void bind(sqlite3_stmt *statement, size_t at, Kind kind, const Value &value) {
    if (kind == Kind::Text) sqlite3_bind_text(statement, int(at), value.text.data(), int(value.text.size()), SQLITE_STATIC);
    else sqlite3_bind_int64(statement, int(at), value.number);
  }
  void bind_key(sqlite3_stmt *statement, const Value *key) {
    for (size_t c = 0; c < table.keys; c++) bind(statement, c + 1, table.kinds[c], key[c]);
  }
  void bind_row(sqlite3_stmt *statement, const Value *row) {
    for (size_t c = 0; c < table.columns(); c++) bind(statement, c + 1, table.kinds[c], row[c]);
  }
  void step_once(sqlite3_stmt *statement) { check(sqlite3_step(statement)), check(sqlite3_reset(statement)); }
  void read_row(const Tree &tree, sqlite3_stmt *statement, Value *row, size_t columns) {
    for (size_t c = 0; c < columns; c++) {
      if (tree.kinds[c] != Kind::Text) {
        row[c].number = sqlite3_column_int64(statement, int(c));
        continue;
      }
      auto text = reinterpret_cast<const char *>(sqlite3_column_text(statement, int(c)));
      row[c].text = View(text, size_t(sqlite3_column_bytes(statement, int(c))));
    }
  }

  // A list of the columns from a place on, each as `text` makes it of its name.
  template <class Text>
  std::string listed(size_t from, size_t to, const char *between, Text text) {
    std::string list;
    for (size_t c = from; c < to; c++) list += (c == from ? "" : between) + text(c);
    return list;
  }
  std::string name(const Tree &tree, size_t c) { return '"' + tree.names[c] + '"'; }
  std::string name(size_t c) { return name(table, c); }
  std::string first_names(const Tree &tree, size_t count) { return listed(0, count, ",", [&](size_t c) { return name(tree, c); }); }
  std::string first_names(size_t count) { return first_names(table, count); }
  std::string marks(size_t count) { return listed(0, count, ",", [](size_t) { return std::string("?"); }); }

  // One statement for each list of operations and columns. Its arguments follow the key.
  sqlite3_stmt *upsert(const Batch &batch, const Message &m) {
    std::string shape;
    for (size_t i = 0; i < m.operation_count; i++) {
      const Operation &o = batch.operations[m.operations + i];
      shape += char(o.is_add), shape += char(o.column);
    }
    sqlite3_stmt *&statement = upserts[shape];
    if (statement) return statement;
    std::vector<std::string> fresh(table.columns()), kept(table.columns());
    for (size_t c = 0; c < table.columns(); c++) {
      fresh[c] = c < table.keys ? "?" + std::to_string(c + 1) : table.kinds[c] == Kind::Text ? "''" : "0";
      kept[c] = name(c);
    }
    for (size_t i = 0; i < m.operation_count; i++) {
      const Operation &o = batch.operations[m.operations + i];
      std::string argument = "?" + std::to_string(table.keys + i + 1);
      for (auto *row : {&fresh, &kept}) (*row)[o.column] = o.is_add ? (*row)[o.column] + "+" + argument : argument;
    }
    auto set = [&](size_t c) { return name(c) + "=" + kept[c]; };
    std::string values = listed(0, table.columns(), ",", [&](size_t c) { return fresh[c]; });
    std::string sets = listed(table.keys, table.columns(), ",", set);
    return statement = prepare("INSERT INTO t VALUES(" + values + ") ON CONFLICT(" + first_names(table.keys) + ") DO UPDATE SET " + sets);
  }

  // The filter of an index, with its constant.
  std::string filter(const Index &index) {
    std::string constant = std::to_string(index.constant.number);
    if (table.kinds[index.column] == Kind::Text) {
      constant = "'";
      for (char c : index.text) constant.append(c == '\'' ? 2 : 1, c);
      constant += '\'';
    }
    return name(index.column) + index.test + constant;
  }

  // The rows of a range, or their groups, where they have columns: one statement for each form. Its arguments are the bounds.
  sqlite3_stmt *of_range(size_t number, const Range &range, const Grouping &by) {
    const Tree &tree = table.tree(number);
    size_t from = range.from.size(), to = range.to.size(), at = 0;
    sqlite3_stmt *&statement = ranges[{char(number), char(from), char(to), char(by.columns), char(by.summed)}];
    if (!statement) {
      std::string groups = first_names(tree, by.columns), sql = "SELECT ", before = " WHERE ";
      sql += by.columns ? groups + ",COUNT(*),SUM(" + name(tree, by.summed) + ")" : first_names(tree, tree.columns());
      sql += number ? " FROM t INDEXED BY \"" + tree.name + '"' : is_rowid ? " FROM t NOT INDEXED" : " FROM t";
      auto add = [&](const std::string &condition) { sql += before + condition, before = " AND "; };
      if (number && table.indexes[number - 1].has_filter) add(filter(table.indexes[number - 1]));
      if (from) add("(" + first_names(tree, from) + ")>=(" + marks(from) + ")");
      if (to) add("(" + first_names(tree, to) + ")<(" + marks(to) + ")");
      statement = prepare(sql + (by.columns ? " GROUP BY " + groups + " ORDER BY " + groups : " ORDER BY " + first_names(tree, tree.keys)));
    }
    for (auto *bound : {&range.from, &range.to})
      for (size_t c = 0; c < bound->size(); c++) bind(statement, ++at, tree.kinds[c], (*bound)[c]);
    return statement;
  }

 public:
  explicit Sqlite(const Table &given) : table(given) {
    sqlite3_config(SQLITE_CONFIG_MEMSTATUS, 0);
    check(sqlite3_open_v2(":memory:", &db, SQLITE_OPEN_READWRITE | SQLITE_OPEN_CREATE | SQLITE_OPEN_NOMUTEX, nullptr));
    execute("PRAGMA journal_mode=OFF; PRAGMA synchronous=OFF; PRAGMA locking_mode=EXCLUSIVE; PRAGMA page_size=16384");
    is_rowid = table.keys == 1 && table.kinds[0] == Kind::Int;
    auto column = [&](size_t c) {
      return name(c) + (table.kinds[c] == Kind::Text ? " TEXT" : " INTEGER") + (is_rowid && c == 0 ? " PRIMARY KEY" : " NOT NULL");
    };
    std::string columns = listed(0, table.columns(), ",", column);
    execute("CREATE TABLE t(" + columns + (is_rowid ? ")" : ", PRIMARY KEY(" + first_names(table.keys) + ")) WITHOUT ROWID"));
    std::string is_key = " WHERE " + listed(0, table.keys, " AND ", [&](size_t c) { return name(c) + "=?"; });
    put = prepare("REPLACE INTO t VALUES(" + marks(table.columns()) + ")");
    insert = prepare("INSERT INTO t VALUES(" + marks(table.columns()) + ")");
    del = prepare("DELETE FROM t" + is_key);
    find = prepare("SELECT * FROM t" + is_key);
  }
  void create(size_t) { built.emplace_back(); }
  // The key of the table ends an entry by itself, so it is named only if included columns follow it.
  size_t build(size_t tree, size_t count) {
    const Index &index = table.indexes[tree - 1];
    Built &at = built[tree - 1];
    if (!at.is_made) {
      size_t columns = index.columns() > index.keys ? index.columns() : index.keys - table.keys;
      std::string sql = "CREATE INDEX \"" + index.name + "\" ON t(" + first_names(index, columns) + ")";
      execute(index.has_filter ? sql + " WHERE " + filter(index) : sql);
      sqlite3_stmt *rows = prepare("SELECT COUNT(*) FROM t");
      check(sqlite3_step(rows));
      at = {true, size_t(sqlite3_column_int64(rows, 0))};
      check(sqlite3_finalize(rows));
    }
    size_t read = std::min(count, at.left);
    at.left -= read;
    return read;
  }
  bool apply(const Batch &batch, std::vector<int64_t> &) {
    for (const Built &each : built)
      if (each.left) fail("a batch between two steps of building");
    execute("BEGIN");
    for (uint32_t at : order_of(table, batch)) {
      const Message &m = batch.messages[at];
      const Value *row = batch.row(m);
      sqlite3_stmt *statement = m.kind == Message::Put ? put : m.kind == Message::Del ? del : upsert(batch, m);
      m.kind == Message::Put ? bind_row(statement, row) : bind_key(statement, row);
      for (size_t i = 0; i < m.operation_count; i++) {
        const Operation &o = batch.operations[m.operations + i];
        bind(statement, table.keys + i + 1, table.kinds[o.column], o.argument);
      }
      step_once(statement);
    }
    execute("COMMIT");
    return false;
  }
  // Rows by rising key, which SQLite adds at the end of its tree.
  void load(const Batch &batch) {
    execute("BEGIN");
    for (uint32_t at : order_of(table, batch)) {
      bind_row(insert, batch.row(batch.messages[at]));
      step_once(insert);
    }
    execute("COMMIT");
  }
  bool get(const Value *key, Value *row) {
    bind_key(find, key);
    int code = sqlite3_step(find);
    check(code);
    held.clear();
    if (code == SQLITE_ROW) read_row(table, find, row, table.columns());
    for (size_t c = 0; code == SQLITE_ROW && c < table.columns(); c++)
      if (table.kinds[c] == Kind::Text) row[c].text = held.emplace_back(row[c].text);
    check(sqlite3_reset(find));
    return code == SQLITE_ROW;
  }
  template <class Each>
  void scan(size_t at, const Range &range, Each each) {
    const Tree &tree = table.tree(at);
    Value row[MOST_COLUMNS];
    sqlite3_stmt *rows = of_range(at, range, {0, 0});
    while (sqlite3_step(rows) == SQLITE_ROW) {
      read_row(tree, rows, row, tree.columns());
      each(row);
    }
    check(sqlite3_reset(rows));
  }
  template <class Each>
  void sums(size_t at, const Range &range, const Grouping &by, Each each) {
    const Tree &tree = table.tree(at);
    Value group[MOST_COLUMNS];
    sqlite3_stmt *groups = of_range(at, range, by);
    while (sqlite3_step(groups) == SQLITE_ROW) {
      read_row(tree, groups, group, by.columns);
      each(sqlite3_column_int64(groups, int(by.columns)), sqlite3_column_int64(groups, int(by.columns) + 1), group);
    }
    check(sqlite3_reset(groups));
  }
};

int main(int count, char **words) { return run<Sqlite>(count, words); }
