// std::unordered_map, std::vector and std::unordered_set, each under a std::shared_mutex. A value in a box is a
// std::shared_ptr: who gets one copies that under the lock, and who sets one makes the box before it takes the lock and
// drops the old one after it.
#include "streams.hpp"
#include <mutex>
#include <shared_mutex>
#include <unordered_map>
#include <unordered_set>

struct Peer : Plain {
    std::shared_mutex lock;
    std::unordered_map<i64, i64> map;
    std::unordered_map<i64, Box> boxes;
    std::unordered_set<i64> set;
    std::vector<i64> list;
    static bool has(const Workload&) { return true; }
    bool read(Operation o) {
        std::shared_lock held(lock);
        if (o.kind == Kind::Has) return set.count(o.key) <= 1;
        if (o.kind == Kind::Item) return o.key < list.size() && is_small_at(o.key, list[o.key]);
        auto found = map.find(o.key);
        return found != map.end() && is_small_at(o.key, found->second);
    }
    bool read_box(Operation o) {
        Box box;
        {
            std::shared_lock held(lock);
            auto found = boxes.find(o.key);
            if (found != boxes.end()) box = found->second;
        }
        return box && is_boxed_at(o.key, *box);
    }
    bool write_box(Operation o, u32 serial) {
        Box box = box_of(o.key, serial);
        std::unique_lock held(lock);
        boxes[o.key].swap(box);
        held.unlock();
        return true;
    }
    bool write(Operation o, u32 serial) {
        std::unique_lock held(lock);
        if (o.kind == Kind::Set) map[o.key] = small_of(o.key, serial);
        if (o.kind == Kind::Append) list.push_back(small_of(o.key, serial));
        if (o.kind == Kind::Add) set.insert(o.key);
        if (o.kind == Kind::Discard) set.erase(o.key);
        return true;
    }
    bool make(Operation o, u32 serial) {
        bool reads = o.kind == Kind::Get || o.kind == Kind::Item || o.kind == Kind::Has;
        if (o.kind == Kind::GetBoxed) return read_box(o);
        if (o.kind == Kind::SetBoxed) return write_box(o, serial);
        return reads ? read(o) : write(o, serial);
    }
    void fill(Workload::Way way) {
        for (u32 key = 0; key < 1000; key++) {
            if (way == Workload::Dict) make({Kind::Set, key}, 0);
            if (way == Workload::Boxes) make({Kind::SetBoxed, key}, 0);
            if (way == Workload::Set && key % 2 == 0) make({Kind::Add, key}, 0);
        }
    }
    void freshen(Workload::Way way) {
        if (way == Workload::Growth) {
            map = {};
            for (u32 key = 0; key < first_pairs; key++) make({Kind::Set, key}, 0);
        }
        if (way == Workload::List) {
            list = {};
            for (u32 key = 0; key < 1000; key++) make({Kind::Append, key}, 0);
        }
    }
};
int main(int words, char** word) { return run<Peer>(words, word); }
