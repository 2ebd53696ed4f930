// liburcu's cds_lfht, a lock-free hash table under RCU of the flavour memb: a read is a lookup inside a read-side
// critical section; a set replaces the node and frees the old one after a grace period, by call_rcu. A value in a box is a
// std::shared_ptr of the node, which who gets it copies inside the critical section and reads after it.
#include "streams.hpp"
#define _LGPL_SOURCE 1
#define URCU_INLINE_SMALL_FUNCTIONS 1
#include <urcu/urcu-memb.h>
#define RCU_MEMB 1
#include <urcu/rculfhash.h>

struct Node {
    cds_lfht_node node;
    rcu_head head;
    i64 key, value;
    Box box;
};
static unsigned long hash_of(i64 key) {
    u64 h = u64(key) * 0x9e3779b97f4a7c15ull;
    return h ^ (h >> 32);
}
static Node* node_of(cds_lfht_node* n) {
    return reinterpret_cast<Node*>(reinterpret_cast<char*>(n) - offsetof(Node, node));
}
static int is_key(cds_lfht_node* n, const void* key) { return node_of(n)->key == *static_cast<const i64*>(key); }
static void free_node(rcu_head* h) {
    delete reinterpret_cast<Node*>(reinterpret_cast<char*>(h) - offsetof(Node, head));
}

struct Peer {
    cds_lfht* table = nullptr;
    static bool has(const Workload& w) { return w.way != Workload::List; }
    void enter() { urcu_memb_register_thread(); }
    void leave() { urcu_memb_unregister_thread(); }
    void rest() {}
    template <class F> void away(F f) { f(); }
    static cds_lfht* fresh() {
        return cds_lfht_new_flavor(8, 8, 0, CDS_LFHT_AUTO_RESIZE | CDS_LFHT_ACCOUNTING, &urcu_memb_flavor, nullptr);
    }
    Node* made(i64 key, i64 value, Box box = {}) {
        Node* n = new Node;
        n->key = key, n->value = value, n->box = std::move(box);
        cds_lfht_node_init(&n->node);
        return n;
    }
    bool make(Operation o, u32 serial) {
        i64 key = o.key;
        bool right = true;
        Box box;
        cds_lfht_iter at;
        urcu_memb_read_lock();
        switch (o.kind) {
        case Kind::Get:
        case Kind::GetBoxed:
        case Kind::Has: {
            cds_lfht_lookup(table, hash_of(key), is_key, &key, &at);
            cds_lfht_node* n = cds_lfht_iter_get_node(&at);
            if (o.kind == Kind::Get) right = n && is_small_at(o.key, node_of(n)->value);
            if (o.kind == Kind::GetBoxed && n) box = node_of(n)->box;
            break;
        }
        case Kind::Set:
        case Kind::SetBoxed: {
            bool boxed = o.kind == Kind::SetBoxed;
            Node* n = boxed ? made(key, 0, box_of(o.key, serial)) : made(key, small_of(o.key, serial));
            cds_lfht_node* old = cds_lfht_add_replace(table, hash_of(key), is_key, &key, &n->node);
            if (old) urcu_memb_call_rcu(&node_of(old)->head, free_node);
            break;
        }
        case Kind::Add: {
            Node* n = made(key, 0);
            if (cds_lfht_add_unique(table, hash_of(key), is_key, &key, &n->node) != &n->node) delete n;
            break;
        }
        case Kind::Discard: {
            cds_lfht_lookup(table, hash_of(key), is_key, &key, &at);
            cds_lfht_node* n = cds_lfht_iter_get_node(&at);
            if (n && !cds_lfht_del(table, n)) urcu_memb_call_rcu(&node_of(n)->head, free_node);
            break;
        }
        default: right = false;
        }
        urcu_memb_read_unlock();
        if (o.kind == Kind::GetBoxed) return box && is_boxed_at(o.key, *box);
        return right;
    }
    void fill(Workload::Way way) {
        table = fresh();
        for (u32 key = 0; key < 1000; key++) {
            if (way == Workload::Dict) make({Kind::Set, key}, 0);
            if (way == Workload::Boxes) make({Kind::SetBoxed, key}, 0);
            if (way == Workload::Set && key % 2 == 0) make({Kind::Add, key}, 0);
        }
    }
    void freshen(Workload::Way way) {
        if (way != Workload::Growth) return;
        cds_lfht_iter at;
        cds_lfht_node* n;
        urcu_memb_read_lock();
        cds_lfht_for_each(table, &at, n) if (!cds_lfht_del(table, n)) urcu_memb_call_rcu(&node_of(n)->head, free_node);
        urcu_memb_read_unlock();
        cds_lfht_destroy(table, nullptr);
        table = fresh();
        for (u32 key = 0; key < first_pairs; key++) make({Kind::Set, key}, 0);
    }
};
int main(int words, char** word) { return run<Peer>(words, word); }
