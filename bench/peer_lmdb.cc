// LMDB over a file in memory, which it writes in place and never syncs; a transaction a batch, and a named database for each tree.
// If there are no indexes, the rows are in the database without a name, which is faster to open.
#include <lmdb.h>
#include <sys/mman.h>

#include "peer.h"

class Store {
  const Table &table;
  MDB_env *env = nullptr;
  MDB_txn *transaction = nullptr;
  std::vector<MDB_dbi> trees;
  std::vector<MDB_cursor *> cursors;  // of the transaction, one for each tree
  bool is_writing = false;

  static void check(int code) {
    if (code) fail(mdb_strerror(code));
  }
  static MDB_val of(View bytes) { return {bytes.size(), const_cast<char *>(bytes.data())}; }
  static View view(const MDB_val &bytes) { return {static_cast<char *>(bytes.mv_data), bytes.mv_size}; }

  void end() {
    for (MDB_cursor *cursor : cursors) mdb_cursor_close(cursor);
    if (is_writing) check(mdb_txn_commit(transaction));
    else mdb_txn_abort(transaction);
  }
  void start(bool writes) {
    is_writing = writes;
    check(mdb_txn_begin(env, nullptr, writes ? 0 : MDB_RDONLY, &transaction));
    cursors.resize(trees.size());
    for (size_t tree = 0; tree < trees.size(); tree++) check(mdb_cursor_open(transaction, trees[tree], &cursors[tree]));
  }

 public:
  explicit Store(const Table &given) : table(given) {
    std::string path = "/proc/self/fd/" + std::to_string(memfd_create("lmdb", 0));
    check(mdb_env_create(&env));
    check(mdb_env_set_mapsize(env, 4ull << 30));
    if (table.will_have_indexes) check(mdb_env_set_maxdbs(env, 9));
    unsigned flags = MDB_NOSUBDIR | MDB_NOLOCK | MDB_NOSYNC | MDB_NOMETASYNC | MDB_WRITEMAP | MDB_NOMEMINIT | MDB_NORDAHEAD;
    check(mdb_env_open(env, path.c_str(), flags, 0600));
    start(false);
  }
  void create() {
    begin();
    MDB_dbi tree;
    std::string name = std::to_string(trees.size());
    check(mdb_dbi_open(transaction, table.will_have_indexes ? name.c_str() : nullptr, MDB_CREATE, &tree));
    end();
    trees.push_back(tree);
    start(false);
  }
  void begin() { end(), start(true); }
  void commit() { end(), start(false); }
  bool get(size_t tree, View key, View &value) {
    MDB_val at = of(key), found;
    int code = mdb_cursor_get(cursors[tree], &at, &found, MDB_SET);
    if (code == MDB_NOTFOUND) return false;
    check(code);
    value = view(found);
    return true;
  }
  void put(size_t tree, View key, View value, unsigned flags = 0) {
    MDB_val at = of(key), bytes = of(value);
    check(mdb_cursor_put(cursors[tree], &at, &bytes, flags));
  }
  void append(size_t tree, View key, View value) { put(tree, key, value, MDB_APPEND); }
  void del(size_t tree, View key) {
    MDB_val at = of(key), found;
    if (mdb_cursor_get(cursors[tree], &at, &found, MDB_SET) == 0) check(mdb_cursor_del(cursors[tree], 0));
  }
  template <class Each>
  void scan(size_t tree, View from, View to, Each each) {
    MDB_val key = of(from), value;
    int code = mdb_cursor_get(cursors[tree], &key, &value, from.empty() ? MDB_FIRST : MDB_SET_RANGE);
    while (code == 0 && (to.empty() || view(key) < to) && each(view(key), view(value)))
      code = mdb_cursor_get(cursors[tree], &key, &value, MDB_NEXT);
  }
};

int main(int count, char **words) { return run<OverStore<Store>>(count, words); }
