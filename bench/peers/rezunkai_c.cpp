// This library from C: the calls of c/rezunkai.h, with rez_dict_get and rez_dict_set on a dict, and rez_call elsewhere.
// Workloads of values in boxes aren't among them.
#include "streams.hpp"
#include "rezunkai.h"

static std::atomic<u32> given{0};

struct Peer {
    rez_session sessions[64] = {};
    static bool has(const Workload& w) { return w.way != Workload::Boxes; }
    Peer() {
        rez_sizes sizes = rez_sizes_of(1, 1, 1, 64);
        for (u32 c = 0; c < 14; c++) sizes.tables[c] = c < 10 ? 64 : 8;
        rez_status status = rez_open(&sizes, sessions);
        if (status != REZ_DONE) std::fprintf(stderr, "rez_open: %s\n", rez_status_name(status)), std::exit(1);
    }
    static rez_session*& mine() { thread_local rez_session* session = nullptr; return session; }
    void enter() { mine() = &sessions[given.fetch_add(1)], rez_enter(mine()); }
    void leave() { rez_leave(mine()); }
    void rest() { rez_quiesce(mine()); }
    template <class F> void away(F f) { rez_leave(mine()), f(), rez_enter(mine()); }
    bool call(rez_op op, u32 container, rez_datum key, rez_datum value, i64 index, rez_reply& reply) {
        rez_request request = rez_on(op, container);
        request.key = key, request.value = value, request.index = index;
        return rez_call(mine(), &request, &reply) == REZ_DONE;
    }
    bool is_done(rez_op op, u32 container, rez_datum key, rez_datum value) {
        rez_reply reply;
        return call(op, container, key, value, 0, reply) && reply.tag == REZ_R_DONE;
    }
    bool make(Operation o, u32 serial) {
        rez_datum key = rez_int(o.key), none = rez_none(), value;
        rez_reply reply;
        switch (o.kind) {
        case Kind::Get: return rez_dict_get(mine(), 0, key, &value) == REZ_DONE && is_small_at(o.key, value.value);
        case Kind::Set: {
            value = rez_int(small_of(o.key, serial));
            if (rez_dict_set(mine(), 0, key, value) == REZ_DONE) return true;
            return is_done(REZ_D_SET, 0, key, value);    // a table was wanted
        }
        case Kind::Item: return call(REZ_L_GET, 1, none, none, o.key, reply) && is_small_at(o.key, reply.value.value);
        case Kind::Append: return is_done(REZ_L_APPEND, 1, none, rez_int(small_of(o.key, serial)));
        case Kind::Add: return is_done(REZ_S_ADD, 2, key, none);
        case Kind::Discard: return is_done(REZ_S_DISCARD, 2, key, none);
        default: return call(REZ_S_HAS, 2, key, none, 0, reply) && reply.tag == REZ_R_TRUTH;
        }
    }
    void fill(Workload::Way way) {
        for (u32 key = 0; key < 1000; key++) {
            if (way == Workload::Dict) make({Kind::Set, key}, 0);
            if (way == Workload::Set && key % 2 == 0) make({Kind::Add, key}, 0);
        }
    }
    void freshen(Workload::Way way) {
        if (way == Workload::Growth) {
            is_done(REZ_D_CLEAR, 0, rez_none(), rez_none());
            for (u32 key = 0; key < first_pairs; key++) make({Kind::Set, key}, 0);
        }
        if (way == Workload::List) {
            is_done(REZ_L_CLEAR, 1, rez_none(), rez_none());
            for (u32 key = 0; key < 1000; key++) make({Kind::Append, key}, 0);
        }
    }
};
int main(int words, char** word) { return run<Peer>(words, word); }
