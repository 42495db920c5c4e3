// What the peers share: the script, typed rows, key codes, replies, and the loop over the commands.
//
// A peer is an engine with these members, and a main that calls run<Engine>:
//   explicit Engine(const Table &);           the table already has its columns
//   void create(size_t tree);                 an empty index that is already in the table
//   size_t build(size_t tree, size_t count);  a step of building it: the number of rows that it read
//   bool apply(const Batch &, std::vector<int64_t> &sent);   the messages in order, as one transaction; whether the engine
//                                             knows how many messages each index was sent, by its tree
//   void load(const Batch &);                 puts of new keys alone, into an empty table without indexes, as one transaction
//   bool get(const Value *key, Value *row);   whether there is a row
//   void scan(size_t tree, const Range &, each);   calls each(const Value *row) by rising key
//   void sums(size_t tree, const Range &, const Grouping &, each);   calls each(int64_t count, int64_t total, const Value *group)
// Tree 0 is that of the rows; those after it are the indexes. The script is one that the workloads generate: it has no refusals, and
// only one table.
#pragma once
#include <fcntl.h>
#include <unistd.h>

#include <algorithm>
#include <charconv>
#include <cstdint>
#include <cstdio>
#include <cstdlib>
#include <cstring>
#include <deque>
#include <string>
#include <string_view>
#include <vector>

using View = std::string_view;

[[noreturn]] inline void fail(const std::string &what) {
  fprintf(stderr, "peer: %s\n", what.c_str());
  _exit(1);
}

enum class Kind : uint8_t { Int, Text, Flag };

struct Value {
  int64_t number = 0;  // of an int, and 0 or 1 of a flag
  View text;
};

// The rows of a table or of an index: their columns, the first of which are the key.
struct Tree {
  std::string name;
  std::vector<std::string> names;
  std::vector<Kind> kinds;
  size_t keys = 0;
  size_t columns() const { return kinds.size(); }
};

inline int compare(Kind kind, const Value &a, const Value &b);

// An index has the columns that it is on, then the key columns of the table, then those that it includes.
struct Index : Tree {
  std::vector<size_t> places;  // of its columns in a row of the table
  // The filter, if it has one: a column of the table, and a constant.
  bool has_filter = false;
  size_t column = 0;
  std::string test, text;
  Value constant;

  bool passes(Kind kind, const Value *row) const {
    if (!has_filter) return true;
    int order = compare(kind, row[column], constant);
    return test == "=" ? order == 0 : test == "<" ? order < 0 : order >= 0;
  }
};

struct Table : Tree {
  bool will_have_indexes = false;  // whether the script makes one
  std::deque<Index> indexes;       // by creation; index i is tree i + 1
  const Tree &tree(size_t at) const { return at ? indexes[at - 1] : static_cast<const Tree &>(*this); }
};

struct Operation {
  bool is_add;
  size_t column;
  Value argument;
};

// A put has a row in the batch's values, a del and an upsert have a key there.
struct Message {
  enum { Put, Del, Ups } kind;
  uint32_t values, operations, operation_count;
};

struct Batch {
  std::vector<Message> messages;
  std::vector<Value> values;
  std::vector<Operation> operations;
  const Value *row(const Message &m) const { return &values[m.values]; }
};

// Bounds: values of the first key columns, and no values if there is no bound.
struct Range {
  std::vector<Value> from, to;
};

// The number of first columns that group the rows, and the column that is summed. No total of the workloads exceeds 64 bits.
struct Grouping {
  size_t columns, summed;
};

constexpr size_t MOST_COLUMNS = 16;  // of the table, and of the indexes of the workloads

// ---- rows ----

inline int compare(Kind kind, const Value &a, const Value &b) {
  if (kind == Kind::Text) return a.text.compare(b.text);
  return (a.number > b.number) - (a.number < b.number);
}

// The row of a key without one, before its upserts.
inline void set_default(const Tree &table, const Value *key, Value *row) {
  std::copy(key, key + table.keys, row);
  std::fill(row + table.keys, row + table.columns(), Value());
}

inline void change(const Batch &batch, const Message &m, Value *row) {
  for (size_t i = m.operations; i < m.operations + m.operation_count; i++) {
    const Operation &o = batch.operations[i];
    if (!o.is_add) {
      row[o.column] = o.argument;
    } else if (__builtin_add_overflow(row[o.column].number, o.argument.number, &row[o.column].number)) {
      row[o.column].number = o.argument.number < 0 ? INT64_MIN : INT64_MAX;
    }
  }
}

// ---- codes ----

// Appends the code of a value of a key: codes are in the order of values.
inline void add_code(std::string &code, Kind kind, const Value &value) {
  if (kind == Kind::Int) {
    uint64_t big = __builtin_bswap64(uint64_t(value.number) ^ (1ull << 63));
    code.append(reinterpret_cast<char *>(&big), 8);
  } else if (kind == Kind::Flag) {
    code += char(value.number);
  } else {
    for (char c : value.text) c ? void(code += c) : void(code.append("\0\xff", 2));
    code.append("\0\1", 2);
  }
}

// Reads a value of a key. The workloads have no text with a zero byte.
inline const char *read_code(const char *at, Kind kind, Value &value) {
  if (kind == Kind::Int) {
    uint64_t big;
    memcpy(&big, at, 8);
    value.number = int64_t(__builtin_bswap64(big) ^ (1ull << 63));
    return at + 8;
  }
  if (kind == Kind::Flag) return value.number = *at, at + 1;
  value.text = View(at);
  return at + value.text.size() + 2;
}

// Appends the bytes of a value that is in no key.
inline void add_packed(std::string &bytes, Kind kind, const Value &value) {
  if (kind == Kind::Int) bytes.append(reinterpret_cast<const char *>(&value.number), 8);
  else if (kind == Kind::Flag) bytes += char(value.number);
  else (bytes += char(value.text.size())).append(value.text);
}

inline const char *read_packed(const char *at, Kind kind, Value &value) {
  if (kind == Kind::Int) return memcpy(&value.number, at, 8), at + 8;
  if (kind == Kind::Flag) return value.number = *at, at + 1;
  value.text = View(at + 1, uint8_t(*at));
  return at + 1 + value.text.size();
}

// The places of the messages in the order in which an engine takes them: by key, which is faster for new keys, and for one key by
// arrival. A batch of upserts alone is in the order of arrival, since sorting it costs more than it saves, unless it must be sorted.
inline std::vector<uint32_t> order_of(const Tree &table, const Batch &batch, bool is_to_sort = false) {
  struct Place {
    uint64_t head;  // the first bytes of the code
    uint32_t at;
  };
  std::vector<Place> places(batch.messages.size());
  bool is_sorted = !is_to_sort;
  std::string code;
  for (uint32_t at = 0; at < places.size(); at++) {
    const Message &m = batch.messages[at];
    is_sorted &= m.kind == Message::Ups;
    code.clear();
    for (size_t c = 0; c < table.keys && code.size() < 8; c++) add_code(code, table.kinds[c], batch.row(m)[c]);
    uint64_t head = 0;
    memcpy(&head, code.data(), std::min<size_t>(8, code.size()));
    places[at] = {__builtin_bswap64(head), at};
  }
  auto is_before = [&](const Place &x, const Place &y) {
    if (x.head != y.head) return x.head < y.head;
    const Value *a = batch.row(batch.messages[x.at]), *b = batch.row(batch.messages[y.at]);
    for (size_t c = 0; c < table.keys; c++)
      if (int order = compare(table.kinds[c], a[c], b[c])) return order < 0;
    return x.at < y.at;
  };
  if (!is_sorted) std::sort(places.begin(), places.end(), is_before);
  std::vector<uint32_t> order;
  for (const Place &place : places) order.push_back(place.at);
  return order;
}

// Puts and dels of entries of an index, applied in ascending order of their keys.
class Changes {
  struct Change {
    uint64_t head;  // the first bytes of the key
    size_t at;
    uint32_t key, value;  // in bytes
    bool is_del;
  };
  std::string bytes;
  std::vector<Change> list;

  View key_of(const Change &c) const { return View(bytes).substr(c.at, c.key); }

 public:
  void clear() { bytes.clear(), list.clear(); }
  size_t count() const { return list.size(); }
  void add(bool is_del, const std::string &key, const std::string &value) {
    uint64_t head = 0;
    memcpy(&head, key.data(), std::min<size_t>(8, key.size()));
    list.push_back({__builtin_bswap64(head), bytes.size(), uint32_t(key.size()), uint32_t(is_del ? 0 : value.size()), is_del});
    bytes += key;
    if (!is_del) bytes += value;
  }
  // Calls each(bool is_del, View key, View value).
  template <class Each>
  void in_order(Each each) {
    std::sort(list.begin(), list.end(), [&](const Change &x, const Change &y) {
      return x.head != y.head ? x.head < y.head : key_of(x) < key_of(y);
    });
    for (const Change &c : list) each(c.is_del, key_of(c), View(bytes).substr(c.at + c.key, c.value));
  }
};

// An engine over a store of trees of keys and values:
//   explicit Store(const Table &);  void create();   one more tree
//   void begin();  void commit();
//   bool get(size_t tree, View key, View &value);   void put(size_t tree, View key, View value);   void del(size_t tree, View key);
//   void append(size_t tree, View key, View value);   a key after all others
//   void scan(size_t tree, View from, View to, each);   calls each(View key, View value), which says whether to go on; an empty bound is none
// This class works out what a batch means for an index: for each key that it names the row before and after it.
template <class Store>
class OverStore {
  struct Covered {
    bool is_whole = false;
    std::string last;  // the key of the last row that was read, if one was
    bool covers(View key) const { return is_whole || (!last.empty() && key <= View(last)); }
  };

  const Table &table;
  Store store;
  std::string key, value;
  std::string old_code, old_bytes, code, bytes;  // of entries
  std::vector<Covered> covers;  // of each index
  std::vector<Changes> changes;

  void set_key(const Value *row) {
    key.clear();
    for (size_t c = 0; c < table.keys; c++) add_code(key, table.kinds[c], row[c]);
  }
  void set_value(const Value *row) {
    value.clear();
    for (size_t c = table.keys; c < table.columns(); c++) add_packed(value, table.kinds[c], row[c]);
  }
  void put(const Value *row) {
    set_value(row);
    store.put(0, key, value);
  }
  static void read_value(const Tree &tree, View bytes, Value *row) {
    const char *at = bytes.data();
    for (size_t c = tree.keys; c < tree.columns(); c++) at = read_packed(at, tree.kinds[c], row[c]);
  }
  static void read_entry(const Tree &tree, View code, View bytes, Value *row) {
    const char *at = code.data();
    for (size_t c = 0; c < tree.keys; c++) at = read_code(at, tree.kinds[c], row[c]);
    read_value(tree, bytes, row);
  }
  static void set_entry(const Index &index, const Value *row, std::string &at, std::string &values) {
    at.clear(), values.clear();
    for (size_t c = 0; c < index.keys; c++) add_code(at, index.kinds[c], row[index.places[c]]);
    for (size_t c = index.keys; c < index.columns(); c++) add_packed(values, index.kinds[c], row[index.places[c]]);
  }
  bool passes(const Index &index, const Value *row) { return index.passes(table.kinds[index.column], row); }

  // Without an index each message is one operation of the store, and an upsert two.
  void apply_alone(const Batch &batch) {
    Value row[MOST_COLUMNS];
    View old;
    for (uint32_t at : order_of(table, batch)) {
      const Message &m = batch.messages[at];
      set_key(batch.row(m));
      if (m.kind == Message::Put) {
        put(batch.row(m));
      } else if (m.kind == Message::Del) {
        store.del(0, key);
      } else {
        set_default(table, batch.row(m), row);
        if (store.get(0, key, old)) read_value(table, old, row);
        change(batch, m, row);
        put(row);
      }
    }
  }
  // What a change of the row at the key means for each index; there may be no row before or after it.
  void add_changes(bool was, const Value *before, bool is, const Value *after) {
    for (size_t i = 0; i < table.indexes.size(); i++) {
      const Index &index = table.indexes[i];
      if (!covers[i].covers(key)) continue;
      bool had = was && passes(index, before), has = is && passes(index, after);
      if (had) set_entry(index, before, old_code, old_bytes);
      if (has) set_entry(index, after, code, bytes);
      bool stays = had && has && old_code == code;
      if (stays && old_bytes == bytes) continue;
      if (had && !stays) changes[i].add(true, old_code, old_bytes);
      if (has) changes[i].add(false, code, bytes);
    }
  }
  // With indexes the row of each key is read, and written once after all messages to the key.
  void apply_indexed(const Batch &batch, std::vector<int64_t> &sent) {
    Value before[MOST_COLUMNS], after[MOST_COLUMNS];
    View old;
    for (Changes &each : changes) each.clear();
    std::vector<uint32_t> order = order_of(table, batch, true);
    for (size_t i = 0; i < order.size();) {
      const Value *row = batch.row(batch.messages[order[i]]);
      set_key(row);
      set_default(table, row, before);
      bool was = store.get(0, key, old), is = was;
      if (was) read_value(table, old, before);
      std::copy(before, before + table.columns(), after);
      auto is_same_key = [&](const Value *other) {
        for (size_t c = 0; c < table.keys; c++)
          if (compare(table.kinds[c], row[c], other[c]) != 0) return false;
        return true;
      };
      do {
        const Message &m = batch.messages[order[i]];
        if (m.kind == Message::Put) std::copy(batch.row(m), batch.row(m) + table.columns(), after);
        else if (m.kind == Message::Del || !is) set_default(table, row, after);
        if (m.kind == Message::Ups) change(batch, m, after);
        is = m.kind != Message::Del;
      } while (++i < order.size() && is_same_key(batch.row(batch.messages[order[i]])));
      add_changes(was, before, is, after);
      if (is) put(after);
      else if (was) store.del(0, key);
    }
    for (size_t i = 0; i < changes.size(); i++) {
      sent[i] = int64_t(changes[i].count());
      changes[i].in_order([&](bool is_del, View at, View values) { is_del ? store.del(i + 1, at) : store.put(i + 1, at, values); });
    }
  }

 public:
  explicit OverStore(const Table &given) : table(given), store(given) { store.create(); }

  void create(size_t) { store.create(), covers.emplace_back(), changes.emplace_back(); }

  // Rows are read from the one after the last that was read.
  size_t build(size_t tree, size_t count) {
    const Index &index = table.indexes[tree - 1];
    Covered &covered = covers[tree - 1];
    Value row[MOST_COLUMNS];
    std::string from = covered.last, last;
    bool is_first = from.empty();
    if (!is_first) from += '\0';
    size_t read = 0;
    Changes &puts = changes[tree - 1];
    puts.clear();
    store.scan(0, from, View(), [&](View at, View values) {
      if (read == count) return false;
      read++;
      read_entry(table, at, values, row);
      if (passes(index, row)) set_entry(index, row, code, bytes), puts.add(false, code, bytes);
      if (read == count) last = at;
      return read < count;
    });
    if (read < count) covered.is_whole = true;
    else if (read > 0) covered.last = last;
    store.begin();
    puts.in_order([&](bool, View at, View values) { is_first ? store.append(tree, at, values) : store.put(tree, at, values); });
    store.commit();
    return read;
  }

  bool apply(const Batch &batch, std::vector<int64_t> &sent) {
    auto covers_any = [](const Covered &c) { return c.is_whole || !c.last.empty(); };
    store.begin();
    if (std::any_of(covers.begin(), covers.end(), covers_any)) apply_indexed(batch, sent);
    else apply_alone(batch);
    store.commit();
    return true;
  }
  void load(const Batch &batch) {
    if (!table.indexes.empty()) fail("a load with indexes");
    store.begin();
    for (uint32_t at : order_of(table, batch)) {
      const Value *row = batch.row(batch.messages[at]);
      set_key(row), set_value(row);
      store.append(0, key, value);
    }
    store.commit();
  }
  bool get(const Value *key_values, Value *row) {
    View found;
    set_key(key_values);
    set_default(table, key_values, row);
    if (!store.get(0, key, found)) return false;
    read_value(table, found, row);
    return true;
  }
  template <class Each>
  void scan(size_t at, const Range &range, Each each) {
    const Tree &tree = table.tree(at);
    Value row[MOST_COLUMNS];
    std::string from, to;
    for (size_t c = 0; c < range.from.size(); c++) add_code(from, tree.kinds[c], range.from[c]);
    for (size_t c = 0; c < range.to.size(); c++) add_code(to, tree.kinds[c], range.to[c]);
    store.scan(at, from, to, [&](View found, View values) {
      read_entry(tree, found, values, row);
      each(row);
      return true;
    });
  }
  template <class Each>
  void sums(size_t at, const Range &range, const Grouping &by, Each each) {
    const Tree &tree = table.tree(at);
    Value group[MOST_COLUMNS];
    int64_t count = 0, total = 0;
    scan(at, range, [&](const Value *row) {
      bool is_of = count > 0;
      for (size_t c = 0; is_of && c < by.columns; c++) is_of = compare(tree.kinds[c], group[c], row[c]) == 0;
      if (!is_of) {
        if (count > 0) each(count, total, group);
        std::copy(row, row + by.columns, group);
        count = total = 0;
      }
      count++, total += row[by.summed].number;
    });
    if (count > 0) each(count, total, group);
  }
};

// ---- replies ----

class Replies {
  static constexpr size_t FULL = 1 << 16;  // longer than a line
  char bytes[2 * FULL];
  char *end = bytes;

 public:
  void flush() {
    for (char *at = bytes; at < end;) {
      ssize_t count = write(1, at, size_t(end - at));
      if (count <= 0) fail("write failed");
      at += count;
    }
    end = bytes;
  }
  Replies &add(View text) {
    memcpy(end, text.data(), text.size());
    end += text.size();
    return *this;
  }
  Replies &add(int64_t number) {
    end = std::to_chars(end, end + 24, number).ptr;
    return *this;
  }
  void end_line() {
    *end++ = '\n';
    if (end > bytes + FULL) flush();
  }
  void add_text(View text) {
    if (text.find_first_of(",\"\r\n") == View::npos) return void(add(text));
    *end++ = '"';
    for (char c : text) {
      if (c == '"') *end++ = c;
      *end++ = c;
    }
    *end++ = '"';
  }
  // The record of the first columns, and the end of the line.
  void add_record(const Tree &tree, const Value *row, size_t columns) {
    for (size_t c = 0; c < columns; c++) {
      if (c) *end++ = ',';
      if (tree.kinds[c] == Kind::Int) add(row[c].number);
      else if (tree.kinds[c] == Kind::Flag) add(row[c].number ? "true" : "false");
      else if (columns == 1 && row[c].text.empty()) add("\"\"");
      else add_text(row[c].text);
    }
    end_line();
  }
  void add_row(const Tree &tree, const Value *row) { add("row ").add_record(tree, row, tree.columns()); }
};

// ---- the script ----

class Script {
  std::string bytes;
  const char *at, *end;
  std::deque<std::string> unquoted;  // texts that had double quotes

 public:
  explicit Script(const char *path) {
    int file = open(path, O_RDONLY);
    off_t size = file < 0 ? -1 : lseek(file, 0, SEEK_END);
    if (size < 0) fail(std::string("can't open ") + path);
    bytes.resize(size_t(size));
    for (size_t done = 0; done < bytes.size();) {
      ssize_t count = pread(file, &bytes[done], bytes.size() - done, off_t(done));
      if (count <= 0) fail("read failed");
      done += size_t(count);
    }
    at = bytes.data(), end = at + bytes.size();
  }
  bool next(View &line) {
    if (at == end) return false;
    auto found = static_cast<const char *>(memchr(at, '\n', size_t(end - at)));
    if (!found) fail("a line without its end");
    line = View(at, size_t(found - at));
    at = found + 1;
    return true;
  }
  bool has(View text) const { return View(bytes).find(text) != View::npos; }
  void forget() { unquoted.clear(); }
  void read_record(View record, std::vector<View> &fields) {
    fields.clear();
    for (size_t from = 0;;) {
      size_t to = from;
      if (from < record.size() && record[from] == '"') {
        std::string &text = unquoted.emplace_back();
        for (to = from + 1; to < record.size(); text += record[to++])
          if (record[to] == '"' && (++to == record.size() || record[to] != '"')) break;
        fields.push_back(text);
      } else {
        to = std::min(record.find(',', from), record.size());
        fields.push_back(record.substr(from, to - from));
      }
      if (to >= record.size()) return;
      from = to + 1;
    }
  }
};

inline Value read_value(Kind kind, View field) {
  Value value;
  if (kind == Kind::Text) value.text = field;
  else if (kind == Kind::Flag) value.number = field == "true";
  else if (std::from_chars(field.begin(), field.end(), value.number).ec != std::errc()) fail("no int: " + std::string(field));
  return value;
}

inline size_t column_of(const Tree &tree, View name) {
  size_t c = size_t(std::find(tree.names.begin(), tree.names.end(), name) - tree.names.begin());
  if (c == tree.columns()) fail("no column " + std::string(name));
  return c;
}

// Cuts off the text before a byte, and the byte, or all of it if the byte does not occur.
inline View cut_off(View &text, char byte) {
  size_t length = std::min(text.find(byte), text.size());
  View first = text.substr(0, length);
  text.remove_prefix(std::min(length + 1, text.size()));
  return first;
}

inline size_t tree_of(const Table &table, View name) {
  for (size_t at = 0; at <= table.indexes.size(); at++)
    if (table.tree(at).name == name) return at;
  fail("no tree " + std::string(name));
}

// `table F C L K name:kind ..`; the shape is betable's own.
inline Table read_table(View line) {
  Table table;
  table.name = "primary";
  for (size_t word = 0; !line.empty(); word++) {
    View text = cut_off(line, ' ');
    if (word == 4) table.keys = size_t(text[0] - '0');
    if (word < 5) continue;
    size_t colon = text.find(':');
    View kind = text.substr(colon + 1);
    table.names.emplace_back(text.substr(0, colon));
    table.kinds.push_back(kind == "int" ? Kind::Int : kind == "text" ? Kind::Text : Kind::Flag);
  }
  return table;
}

// `index NAME on LIST [include LIST] [where COLUMN TEST record]`: adds it to the table.
inline void read_index(Script &script, Table &table, View line, std::vector<View> &fields) {
  Index &index = table.indexes.emplace_back();
  auto add = [&](size_t place) {
    index.places.push_back(place), index.names.push_back(table.names[place]), index.kinds.push_back(table.kinds[place]);
  };
  auto add_all = [&](View list) {
    while (!list.empty()) add(column_of(table, cut_off(list, ',')));
  };
  cut_off(line, ' ');
  index.name = cut_off(line, ' ');
  cut_off(line, ' ');
  add_all(cut_off(line, ' '));
  for (size_t c = 0; c < table.keys; c++) add(c);
  index.keys = index.columns();
  while (!line.empty()) {
    if (cut_off(line, ' ') == "include") {
      add_all(cut_off(line, ' '));
      continue;
    }
    index.has_filter = true;
    index.column = column_of(table, cut_off(line, ' '));
    index.test = cut_off(line, ' ');
    script.read_record(line, fields);
    index.text = fields.at(0);
    index.constant = read_value(table.kinds[index.column], index.text);
    break;
  }
  if (index.columns() > MOST_COLUMNS) fail("too many columns");
}

inline void read_batch(Script &script, const Table &table, std::vector<View> &fields, Batch &batch) {
  View line;
  batch.messages.clear(), batch.values.clear(), batch.operations.clear();
  while (script.next(line) && line != "end") {
    Message m{line[0] == 'p' ? Message::Put : line[0] == 'd' ? Message::Del : Message::Ups,
              uint32_t(batch.values.size()), uint32_t(batch.operations.size()), 0};
    script.read_record(line.substr(4), fields);
    size_t count = m.kind == Message::Put ? table.columns() : table.keys;
    if (fields.size() < count) fail("too few fields: " + std::string(line));
    for (size_t c = 0; c < count; c++) batch.values.push_back(read_value(table.kinds[c], fields[c]));
    for (size_t i = count; i + 2 < fields.size(); i += 3, m.operation_count++) {
      size_t column = column_of(table, fields[i + 1]);
      batch.operations.push_back({fields[i] == "add", column, read_value(table.kinds[column], fields[i + 2])});
    }
    batch.messages.push_back(m);
  }
}

// The records of a load after its header, up to its closing line, as puts. A field in quotes may hold line breaks; the workloads
// have no other quotes, no blank line and no carriage return.
inline void read_load(Script &script, const Table &table, std::vector<View> &fields, Batch &batch) {
  View line, more;
  batch.messages.clear(), batch.values.clear(), batch.operations.clear();
  if (!script.next(line)) fail("a load without its header");
  while (script.next(line) && line != ".") {
    while (std::count(line.begin(), line.end(), '"') % 2 && script.next(more))
      line = View(line.data(), size_t(more.data() + more.size() - line.data()));
    batch.messages.push_back({Message::Put, uint32_t(batch.values.size()), 0, 0});
    script.read_record(line, fields);
    if (fields.size() != table.columns()) fail("a wrong number of fields: " + std::string(line));
    for (size_t c = 0; c < fields.size(); c++) batch.values.push_back(read_value(table.kinds[c], fields[c]));
  }
}

// The bounds of a block, up to its closing line.
inline void read_range(Script &script, const Tree &tree, std::vector<View> &fields, Range &range) {
  View line;
  range.from.clear(), range.to.clear();
  while (script.next(line) && line != "go") {
    bool is_from = line[0] == 'f';
    script.read_record(line.substr(is_from ? 5 : 3), fields);
    auto &bound = is_from ? range.from : range.to;
    for (size_t c = 0; c < fields.size(); c++) bound.push_back(read_value(tree.kinds[c], fields[c]));
  }
}

// Replies to the commands of `--script FILE`.
template <class Engine>
int run(int count, char **words) {
  if (count != 3 || strcmp(words[1], "--script")) fail("usage: --script FILE");
  Script script(words[2]);
  static Replies replies;
  View line;
  if (!script.next(line) || line.substr(0, 6) != "table ") fail("the first line is no table");
  Table table = read_table(line);
  table.will_have_indexes = script.has("\nindex ");
  Engine engine(table);
  replies.add("table ").add(int64_t(table.columns())).end_line();
  std::vector<View> fields;
  std::vector<int64_t> sent;
  Batch batch;
  Range range;
  Value key[MOST_COLUMNS], row[MOST_COLUMNS];
  while (script.next(line)) {
    if (line == "batch") {
      read_batch(script, table, fields, batch);
      sent.assign(table.indexes.size(), 0);
      bool knows = engine.apply(batch, sent);
      script.forget();
      replies.add("batch ").add(int64_t(batch.messages.size()));
      for (size_t i = 0; knows && i < sent.size(); i++) replies.add(" ").add(table.indexes[i].name).add(":").add(sent[i]);
      replies.end_line();
    } else if (line == "load") {
      read_load(script, table, fields, batch);
      engine.load(batch);
      script.forget();
      replies.add("loaded ").add(int64_t(batch.messages.size())).end_line();
      batch = Batch();
    } else if (line == "drain primary") {  // a peer has no buffers, and nothing to pack
      replies.add("drained primary").end_line();
    } else if (line == "rebuild primary") {
      replies.add("rebuilt primary").end_line();
    } else if (line.substr(0, 4) == "get ") {
      script.read_record(line.substr(4), fields);
      for (size_t c = 0; c < table.keys; c++) key[c] = read_value(table.kinds[c], fields.at(c));
      if (engine.get(key, row)) replies.add_row(table, row);
      else replies.add("none").end_line();
    } else if (line.substr(0, 6) == "index ") {
      read_index(script, table, line, fields);
      script.forget();
      engine.create(table.indexes.size());
      replies.add("index ").add(table.indexes.back().name).end_line();
    } else if (line.substr(0, 6) == "build ") {
      View name = (cut_off(line, ' '), cut_off(line, ' '));
      size_t count = size_t(read_value(Kind::Int, line).number), read = engine.build(tree_of(table, name), count);
      replies.add("build ").add(name).add(" ").add(int64_t(read)).add(read < count ? " complete" : " building").end_line();
    } else if (line.substr(0, 5) == "scan ") {
      int64_t rows = 0;
      size_t at = tree_of(table, line.substr(5));
      const Tree &tree = table.tree(at);
      read_range(script, tree, fields, range);
      engine.scan(at, range, [&](const Value *each) { rows++, replies.add_row(tree, each); });
      script.forget();
      replies.add("rows ").add(rows).end_line();
    } else if (line.substr(0, 5) == "sums ") {
      int64_t sums = 0;
      size_t at = tree_of(table, (cut_off(line, ' '), cut_off(line, ' ')));
      const Tree &tree = table.tree(at);
      Grouping by{size_t(cut_off(line, ' ')[0] - '0'), column_of(tree, line)};
      read_range(script, tree, fields, range);
      engine.sums(at, range, by, [&](int64_t count, int64_t total, const Value *group) {
        sums++, replies.add("sum ").add(count).add(" ").add(total).add(" ").add_record(tree, group, by.columns);
      });
      script.forget();
      replies.add("sums ").add(sums).end_line();
    } else {
      fail("no command of the workloads: " + std::string(line));
    }
  }
  replies.flush();
  _exit(0);  // without freeing the memory, which is not part of the work
}
