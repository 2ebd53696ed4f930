// The streams of the threads, the timing and the output, as crates/ft_bench has them.
#pragma once
#include <algorithm>
#include <atomic>
#include <chrono>
#include <cstdint>
#include <cstdio>
#include <cstdlib>
#include <cstring>
#include <memory>
#include <string>
#include <thread>
#include <vector>

using u32 = std::uint32_t;
using u64 = std::uint64_t;
using i64 = std::int64_t;

enum class Kind : u32 { Get, Set, GetBoxed, SetBoxed, Item, Append, Add, Discard, Has };
struct Operation {
    Kind kind;
    u32 key;
};

// A workload: what it works on, and how many of a hundred operations write; for a growth how many pairs there are.
struct Workload {
    const char* name;
    enum Way { Dict, Boxes, Growth, List, Set } way;
    u32 part;
};
static const Workload workloads[] = {
    {"A", Workload::Dict, 0},   {"B", Workload::Dict, 5},   {"C", Workload::Dict, 50},
    {"Ab", Workload::Boxes, 0}, {"Bb", Workload::Boxes, 5}, {"Cb", Workload::Boxes, 50},
    {"D", Workload::Growth, 32768}, {"Ds", Workload::Growth, 2730},
    {"E", Workload::List, 50},  {"E95", Workload::List, 5},
    {"F", Workload::Set, 25},   {"F90", Workload::Set, 5},
};

constexpr u32 operation_count = 16384, batch = 1024, appends = 3072, first_pairs = 8, gets = 64;

// A value has eight bits: the lower five are those of the key, the others those of the serial. In a box it has 40: the
// highest is set, then come 29 of the serial, and the lower ten are the key.
constexpr i64 least = i64(1) << 39;
inline i64 small_of(u32 key, u32 serial) { return i64(serial % 8 * 32 + key % 32); }
inline bool is_small_at(u32 key, i64 value) { return value < 256 && (value & 31) == i64(key % 32); }
inline i64 boxed_of(u32 key, u32 serial) { return least + i64(serial % (1u << 29)) * 1024 + i64(key); }
inline bool is_boxed_at(u32 key, i64 value) { return value >= least && (value & 1023) == i64(key); }

// A value in a box, which those who read it and the dict count.
using Box = std::shared_ptr<const i64>;
inline Box box_of(u32 key, u32 serial) { return std::make_shared<const i64>(boxed_of(key, serial)); }

inline std::vector<Operation> operations(const Workload& w, u32 thread) {
    std::vector<Operation> made;
    u64 x = u64(thread) + 1;
    for (u32 n = 0; n < operation_count; n++) {
        x = x * 6364136223846793005ull + 1442695040888963407ull;
        u64 r = x >> 33;
        u32 key = r / 8 % 1000, p = r / 8000 % 100;
        switch (w.way) {
        case Workload::Dict: made.push_back({p < w.part ? Kind::Set : Kind::Get, key}); break;
        case Workload::Boxes: made.push_back({p < w.part ? Kind::SetBoxed : Kind::GetBoxed, key}); break;
        case Workload::Growth: made.push_back({Kind::Get, key % 8}); break;
        case Workload::List: made.push_back({p < w.part ? Kind::Append : Kind::Item, key}); break;
        case Workload::Set:
            made.push_back({p < w.part ? Kind::Add : p < 2 * w.part ? Kind::Discard : Kind::Has, key});
        }
    }
    return made;
}

inline u64 now() {
    using namespace std::chrono;
    return duration_cast<nanoseconds>(steady_clock::now().time_since_epoch()).count();
}

// A meeting of all threads, of those that spin.
struct Course {
    u32 threads;
    u64 nanos;
    std::atomic<u64> arrivals{0};
    std::atomic<bool> over{false}, filling{false};
    void meet(u64& meetings) {
        arrivals.fetch_add(1);
        u64 all = ++meetings * threads;
        for (u32 spins = 0; arrivals.load() < all; spins++)
            if (spins > 64) std::this_thread::yield();
    }
};

struct alignas(128) Tally {
    u32 thread = 0, place = 0;
    std::vector<Operation> operations;
    u64 made = 0, wrong = 0, nanos = 0, meetings = 0, pairs = 0, pair_nanos = 0;
    std::vector<u64> stalls;
    void count(bool right) { right ? made++ : wrong++; }
};

// A peer P has: make(Operation, serial) -> whether it was answered rightly; fill(way), which puts in what a run begins
// with; freshen(way), with which a round begins; enter(), leave() and rest() of a thread.
template <class P> bool next(P& p, Tally& t) {
    Operation o = t.operations[t.place % operation_count];
    t.place++;
    t.count(p.make(o, t.place));
    return o.kind == Kind::Append;
}

template <class P> void grow(P& p, const Workload& w, Course& c, Tally& t) {
    if (t.thread == 0) {
        u64 start = now();
        for (u32 key = first_pairs; key < w.part; key++) t.count(p.make({Kind::Set, key}, t.place));
        t.pair_nanos += now() - start;
        t.pairs += w.part - first_pairs;
        c.filling.store(false);
        return;
    }
    u64 longest = 0;
    do {
        u64 start = now();
        for (u32 n = 0; n < gets; n++) next(p, t);
        longest = std::max(longest, now() - start);
        p.rest();
    } while (c.filling.load());
    t.stalls.push_back(longest);
}

template <class P> void play(P& p, const Workload& w, Course& c, Tally& t) {
    if (w.way == Workload::Growth) return grow(p, w, c, t);
    if (w.way == Workload::List) {
        for (u32 left = appends / c.threads; left > 0;) left -= next(p, t);
        return;
    }
    u64 start = now();
    for (;;) {
        for (u32 n = 0; n < batch; n++) next(p, t);
        if (now() - start >= c.nanos) return;
        p.rest();
    }
}

template <class P> void go(P& p, const Workload& w, Course& c, Tally& t) {
    p.enter();
    for (;;) {
        if (t.thread == 0) {
            if (t.meetings == 0) p.fill(w.way);
            p.freshen(w.way);
            if (t.nanos >= c.nanos) c.over.store(true);
            c.filling.store(true);
        }
        p.away([&] { c.meet(t.meetings); });
        if (c.over.load()) break;
        u64 start = now();
        play(p, w, c, t);
        p.away([&] { c.meet(t.meetings); });
        t.nanos += now() - start;
    }
    p.leave();
}

inline void show(const Workload& w, std::vector<Tally>& ts) {
    u64 made = 0, wrong = 0, nanos = 0, longest = 0;
    double pair_nanos = std::max<u64>(ts[0].pair_nanos, 1);
    for (auto& t : ts) made += t.made, wrong += t.wrong, nanos = std::max(nanos, t.nanos);
    std::printf("%llu %llu.%09llu bad=%llu", (unsigned long long)made, (unsigned long long)(nanos / 1000000000),
                (unsigned long long)(nanos % 1000000000), (unsigned long long)wrong);
    if (w.way == Workload::Growth) {
        std::vector<u64> stalls;
        for (size_t round = 0; round < ts.back().stalls.size(); round++) {
            u64 stall = 0;
            for (auto& t : ts)
                if (round < t.stalls.size()) stall = std::max(stall, t.stalls[round]);
            stalls.push_back(stall);
        }
        std::sort(stalls.begin(), stalls.end());
        if (!stalls.empty()) longest = stalls.back();
        u64 middle = stalls.empty() ? 0 : stalls[stalls.size() / 2];
        std::printf(" write_mops=%.3f stall_med_ns=%llu stall_max_ns=%llu", ts[0].pairs * 1e3 / pair_nanos,
                    (unsigned long long)middle, (unsigned long long)longest);
    }
    std::printf("\n");
}

// PEER WORKLOAD THREADS [SECONDS], or PEER list.
template <class P> int run(int words, char** word) {
    if (words == 2 && !std::strcmp(word[1], "list")) {
        for (auto& w : workloads)
            if (P::has(w)) std::printf("%s:%s\n", w.name, w.way == Workload::Growth ? "2,4" : "1,2,4");
        return 0;
    }
    const Workload* w = nullptr;
    for (auto& each : workloads)
        if (words >= 3 && !std::strcmp(word[1], each.name) && P::has(each)) w = &each;
    u32 threads = words >= 3 ? std::atoi(word[2]) : 0;
    if (!w || threads < 1 || threads > 64) {
        std::fprintf(stderr, "usage: %s list | WORKLOAD THREADS [SECONDS]\n", word[0]);
        return 2;
    }
    Course c;
    c.threads = threads;
    c.nanos = u64((words >= 4 ? std::atof(word[3]) : 0.25) * 1e9);
    std::vector<Tally> ts(threads);
    for (u32 t = 0; t < threads; t++) ts[t].thread = t, ts[t].operations = operations(*w, t);
    P p;
    std::vector<std::thread> all;
    for (u32 t = 0; t < threads; t++) all.emplace_back([&, t] { go(p, *w, c, ts[t]); });
    for (auto& t : all) t.join();
    show(*w, ts);
    return 0;
}

// What a peer has that does nothing at the edges of its threads' work.
struct Plain {
    void enter() {}
    void leave() {}
    void rest() {}
    template <class F> void away(F f) { f(); }
};
