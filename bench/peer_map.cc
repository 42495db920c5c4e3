// No engine at all: a B-tree map in memory, absl::btree_map.
#include <absl/container/btree_map.h>

#include "peer.h"

class Store {
  using Map = absl::btree_map<std::string, std::string, std::less<>>;
  std::deque<Map> trees;

 public:
  explicit Store(const Table &) {}
  void create() { trees.emplace_back(); }
  void begin() {}
  void commit() {}
  bool get(size_t tree, View key, View &value) {
    auto found = trees[tree].find(key);
    if (found == trees[tree].end()) return false;
    value = found->second;
    return true;
  }
  void put(size_t tree, View key, View value) { trees[tree].insert_or_assign(std::string(key), std::string(value)); }
  void append(size_t tree, View key, View value) { trees[tree].emplace_hint(trees[tree].end(), key, value); }
  void del(size_t tree, View key) {
    auto found = trees[tree].find(key);
    if (found != trees[tree].end()) trees[tree].erase(found);
  }
  template <class Each>
  void scan(size_t tree, View from, View to, Each each) {
    const Map &rows = trees[tree];
    if (!to.empty() && to < from) return;
    auto end = to.empty() ? rows.end() : rows.lower_bound(to);
    for (auto at = rows.lower_bound(from); at != end && each(View(at->first), View(at->second));) ++at;
  }
};

int main(int count, char **words) { return run<OverStore<Store>>(count, words); }
