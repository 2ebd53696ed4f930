// oneTBB's concurrent_vector: appends and reads at the same time, without locks. Items are found through a table of
// segments. An item is read only below 1,000, where it stands since the round began.
#include "streams.hpp"
#include <memory>
#include <oneapi/tbb/concurrent_vector.h>

struct Peer : Plain {
    using List = tbb::concurrent_vector<i64>;
    std::unique_ptr<List> list = std::make_unique<List>();
    static bool has(const Workload& w) { return w.way == Workload::List; }
    bool make(Operation o, u32 serial) {
        if (o.kind == Kind::Item) return o.key < list->size() && is_small_at(o.key, (*list)[o.key]);
        list->push_back(small_of(o.key, serial));
        return true;
    }
    void fill(Workload::Way) {}
    void freshen(Workload::Way) {
        list = std::make_unique<List>();
        for (u32 key = 0; key < 1000; key++) make({Kind::Append, key}, 0);
    }
};
int main(int words, char** word) { return run<Peer>(words, word); }
