// oneTBB's concurrent_unordered_map: reads and insertions at the same time, without locks. A value is an atomic; it has
// no erasure that may meet other calls, so there is no set. A value in a box is a std::shared_ptr that is loaded and
// stored as an atomic, which in C++17 takes one of some locks of the library's for a moment.
#include "streams.hpp"
#include <memory>
#include <oneapi/tbb/concurrent_unordered_map.h>

struct Value {
    std::atomic<i64> is;
    Value(i64 v) : is(v) {}
    Value(const Value& v) : is(v.is.load(std::memory_order_relaxed)) {}
};
struct Peer : Plain {
    using Map = tbb::concurrent_unordered_map<i64, Value>;
    using Boxes = tbb::concurrent_unordered_map<i64, Box>;
    std::unique_ptr<Map> map = std::make_unique<Map>();
    Boxes boxes;
    static bool has(const Workload& w) { return w.way != Workload::List && w.way != Workload::Set; }
    bool read_box(Operation o) {
        auto found = boxes.find(i64(o.key));
        if (found == boxes.end()) return false;
        Box box = std::atomic_load(&found->second);
        return is_boxed_at(o.key, *box);
    }
    bool write_box(Operation o, u32 serial) {
        Box box = box_of(o.key, serial);
        auto found = boxes.find(i64(o.key));
        if (found == boxes.end()) {
            auto put = boxes.emplace(i64(o.key), box);
            if (put.second) return true;
            found = put.first;
        }
        std::atomic_store(&found->second, std::move(box));
        return true;
    }
    bool make(Operation o, u32 serial) {
        if (o.kind == Kind::GetBoxed) return read_box(o);
        if (o.kind == Kind::SetBoxed) return write_box(o, serial);
        i64 key = o.key;
        if (o.kind == Kind::Get) {
            auto found = map->find(key);
            return found != map->end() && is_small_at(o.key, found->second.is.load(std::memory_order_acquire));
        }
        i64 value = small_of(o.key, serial);
        auto found = map->find(key);
        if (found == map->end()) {
            auto put = map->emplace(key, value);
            if (put.second) return true;
            found = put.first;
        }
        found->second.is.store(value, std::memory_order_release);
        return true;
    }
    void fill(Workload::Way way) {
        for (u32 key = 0; key < 1000; key++) {
            if (way == Workload::Dict) make({Kind::Set, key}, 0);
            if (way == Workload::Boxes) make({Kind::SetBoxed, key}, 0);
        }
    }
    void freshen(Workload::Way way) {
        if (way != Workload::Growth) return;
        map = std::make_unique<Map>();
        for (u32 key = 0; key < first_pairs; key++) make({Kind::Set, key}, 0);
    }
};
int main(int words, char** word) { return run<Peer>(words, word); }
