// oneTBB's concurrent_hash_map: each access holds a lock of its element. A value in a box is a std::shared_ptr, which is
// copied or swapped while that lock is held.
#include "streams.hpp"
#include <memory>
#include <oneapi/tbb/concurrent_hash_map.h>

struct Peer : Plain {
    using Map = tbb::concurrent_hash_map<i64, i64>;
    using Boxes = tbb::concurrent_hash_map<i64, Box>;
    std::unique_ptr<Map> map = std::make_unique<Map>();
    Boxes boxes;
    static bool has(const Workload& w) { return w.way != Workload::List; }
    bool read_box(Operation o) {
        Box box;
        {
            Boxes::const_accessor found;
            if (boxes.find(found, i64(o.key))) box = found->second;
        }
        return box && is_boxed_at(o.key, *box);
    }
    bool write_box(Operation o, u32 serial) {
        Box box = box_of(o.key, serial);
        Boxes::accessor place;
        boxes.insert(place, i64(o.key));
        place->second.swap(box);
        place.release();
        return true;
    }
    bool make(Operation o, u32 serial) {
        i64 key = o.key;
        switch (o.kind) {
        case Kind::Get: {
            Map::const_accessor found;
            return map->find(found, key) && is_small_at(o.key, found->second);
        }
        case Kind::Set: {
            Map::accessor place;
            map->insert(place, key);
            place->second = small_of(o.key, serial);
            return true;
        }
        case Kind::GetBoxed: return read_box(o);
        case Kind::SetBoxed: return write_box(o, serial);
        case Kind::Add: map->insert({key, 0}); return true;
        case Kind::Discard: map->erase(key); return true;
        case Kind::Has: map->count(key); return true;
        default: return false;
        }
    }
    void fill(Workload::Way way) {
        for (u32 key = 0; key < 1000; key++) {
            if (way == Workload::Dict) make({Kind::Set, key}, 0);
            if (way == Workload::Boxes) make({Kind::SetBoxed, key}, 0);
            if (way == Workload::Set && key % 2 == 0) make({Kind::Add, key}, 0);
        }
    }
    void freshen(Workload::Way way) {
        if (way != Workload::Growth) return;
        map = std::make_unique<Map>();
        for (u32 key = 0; key < first_pairs; key++) make({Kind::Set, key}, 0);
    }
};
int main(int words, char** word) { return run<Peer>(words, word); }
