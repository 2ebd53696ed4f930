/* Every operation once at least, with the reply that Python's built-in type gives. */
#include "check.h"

enum { D = 0, D2 = 1, L = 2, L2 = 3, S = 4, S2 = 5 };
static rez_session session;

static rez_reply made(rez_request request) { return reply_to(&session, request); }
static rez_datum i(int64_t value) { return rez_int(value); }
static int is_done(rez_reply r) { return r.tag == REZ_R_DONE; }
static int is_value(rez_reply r, int64_t value) { return r.tag == REZ_R_VALUE && is_int(r.value, value); }
static int is_pair(rez_reply r, int64_t key, int64_t value) { return r.tag == REZ_R_PAIR && is_int(r.key, key) && is_int(r.value, value); }
static int is_truth(rez_reply r, int truth) { return r.tag == REZ_R_TRUTH && r.count == (uint64_t)truth; }
static int is_count(rez_reply r, uint64_t count) { return r.tag == REZ_R_COUNT && r.count == count; }

/* Whether the reply has these keys and values, as many as `count`; null: it has none. */
static int has(rez_reply r, rez_tag tag, uint64_t count, const int64_t *wanted_keys, const int64_t *wanted_values) {
    rez_datum keys[16], values[16];
    uint64_t all = 0;
    if (r.tag != (uint32_t)tag || r.count != count || count > 16) return 0;
    if (rez_items(&session, keys, 16, values, 16, &all) != REZ_DONE || all != count) return 0;
    for (uint64_t n = 0; n < count; n++) {
        if (wanted_keys && !is_int(keys[n], wanted_keys[n])) return 0;
        if (wanted_values && !is_int(values[n], wanted_values[n])) return 0;
    }
    return 1;
}
#define LIST_OF(...) (const int64_t[]){__VA_ARGS__}

static void dicts(void) {
    CHECK(is_raised(made(with_key(REZ_D_GET, D, i(1))), REZ_NO_KEY));
    CHECK(is_done(made(with_pair(REZ_D_SET, D, i(1), i(10)))));
    CHECK(is_done(made(with_pair(REZ_D_SET, D, i(-2), i(20)))));
    CHECK(is_value(made(with_key(REZ_D_GET, D, i(1))), 10));
    CHECK(is_value(made(with_pair(REZ_D_GETD, D, i(9), i(99))), 99));
    CHECK(is_value(made(with_pair(REZ_D_SETDEFAULT, D, i(3), i(30))), 30));
    CHECK(is_value(made(with_pair(REZ_D_SETDEFAULT, D, i(3), i(31))), 30));
    CHECK(is_truth(made(with_key(REZ_D_HAS, D, i(-2))), 1) && is_truth(made(with_key(REZ_D_HAS, D, i(9))), 0));
    CHECK(is_count(made(rez_on(REZ_D_LEN, D)), 3));
    CHECK(has(made(rez_on(REZ_D_ITEMS, D)), REZ_R_DICT, 3, LIST_OF(1, -2, 3), LIST_OF(10, 20, 30)));
    CHECK(is_done(made(with_other(REZ_D_COPYTO, D, D2))) && is_truth(made(with_other(REZ_D_EQ, D, D2)), 1));
    CHECK(is_done(made(with_pair(REZ_D_SET, D2, i(5), rez_none()))) && is_truth(made(with_other(REZ_D_EQ, D, D2)), 0));
    CHECK(is_done(made(with_other(REZ_D_UPDATE, D, D2))) && is_count(made(rez_on(REZ_D_LEN, D)), 4));
    rez_reply none = made(with_key(REZ_D_GET, D, i(5)));
    CHECK(none.tag == REZ_R_VALUE && none.value.kind == REZ_NONE);
    CHECK(is_done(made(with_key(REZ_D_DEL, D, i(5)))) && is_raised(made(with_key(REZ_D_DEL, D, i(5))), REZ_NO_KEY));
    CHECK(is_value(made(with_key(REZ_D_POP, D, i(1))), 10) && is_raised(made(with_key(REZ_D_POP, D, i(1))), REZ_NO_KEY));
    CHECK(is_value(made(with_pair(REZ_D_POPD, D, i(1), i(7))), 7));
    CHECK(is_pair(made(rez_on(REZ_D_POPITEM, D)), 3, 30));
    CHECK(is_done(made(with_other(REZ_D_ITER, D, 0))) && is_pair(made(with_other(REZ_NEXT, 0, 0)), -2, 20));
    CHECK(made(with_other(REZ_NEXT, 0, 0)).tag == REZ_R_STOP);
    CHECK(is_done(made(with_other(REZ_D_ITER, D, 0))) && is_done(made(with_pair(REZ_D_SET, D, i(4), i(40)))));
    CHECK(is_raised(made(with_other(REZ_NEXT, 0, 0)), REZ_SIZE_CHANGED));
    CHECK(is_done(made(rez_on(REZ_D_CLEAR, D))) && is_raised(made(rez_on(REZ_D_POPITEM, D)), REZ_NO_KEY));
    rez_datum value = i(0);
    CHECK(rez_dict_set(&session, D, i(8), i(80)) == REZ_DONE && rez_dict_get(&session, D, i(8), &value) == REZ_DONE && is_int(value, 80));
    CHECK(rez_dict_get(&session, D, i(9), &value) == REZ_RAISED && is_int(value, 80));
    CHECK(rez_dict_get(&session, D, rez_none(), &value) == REZ_NO_CALL && rez_dict_set(&session, L, i(1), i(1)) == REZ_NAMES);
}

static void lists(void) {
    for (int n = 1; n <= 4; n++) CHECK(is_done(made(with_value(REZ_L_APPEND, L, i(n * 10)))));
    CHECK(is_done(made(with_index(REZ_L_INSERT, L, -1, i(35)))));      /* [10, 20, 30, 35, 40] */
    CHECK(is_value(made(with_index(REZ_L_GET, L, -2, rez_none())), 35) && is_raised(made(with_index(REZ_L_GET, L, 5, rez_none())), REZ_NO_INDEX));
    CHECK(is_done(made(with_index(REZ_L_SET, L, 0, i(11)))) && is_raised(made(with_index(REZ_L_SET, L, -6, i(1))), REZ_NO_INDEX));
    CHECK(is_done(made(with_index(REZ_L_DEL, L, 1, rez_none()))));     /* [11, 30, 35, 40] */
    CHECK(has(made(rez_on(REZ_L_ITEMS, L)), REZ_R_LIST, 4, NULL, LIST_OF(11, 30, 35, 40)));
    CHECK(is_value(made(rez_on(REZ_L_POP, L)), 40) && is_value(made(with_index(REZ_L_POP_AT, L, 0, rez_none())), 11));
    CHECK(is_count(made(with_value(REZ_L_INDEX, L, i(35))), 1) && is_raised(made(with_value(REZ_L_INDEX, L, i(1))), REZ_NO_VALUE));
    CHECK(is_done(made(with_other(REZ_L_EXTEND, L, L))));              /* [30, 35, 30, 35] */
    CHECK(is_count(made(with_value(REZ_L_COUNT, L, i(35))), 2) && is_truth(made(with_value(REZ_L_HAS, L, i(36))), 0));
    CHECK(is_done(made(with_value(REZ_L_REMOVE, L, i(30)))) && is_raised(made(with_value(REZ_L_REMOVE, L, i(1))), REZ_NO_VALUE));
    CHECK(is_done(made(rez_on(REZ_L_REVERSE, L))));                    /* [35, 30, 35] */
    rez_request slice = with_index(REZ_L_SLICE, L, 1, rez_none());
    slice.end = 9;
    CHECK(has(made(slice), REZ_R_LIST, 2, NULL, LIST_OF(30, 35)));
    CHECK(is_truth(made(with_other(REZ_L_EQ, L, L2)), 0) && is_count(made(rez_on(REZ_L_LEN, L)), 3));
    CHECK(is_done(made(with_other(REZ_L_ITER, L, 1))) && is_value(made(with_other(REZ_NEXT, 0, 1)), 35));
    CHECK(is_done(made(rez_on(REZ_L_CLEAR, L))) && made(with_other(REZ_NEXT, 0, 1)).tag == REZ_R_STOP);
    CHECK(is_raised(made(rez_on(REZ_L_POP, L)), REZ_NO_INDEX) && is_truth(made(with_other(REZ_L_EQ, L, L2)), 1));
}

/* A session has 64 places: a value takes one until no container has it. */
static void heaps(void) {
    for (int n = 0; n < 64; n++) CHECK(is_done(made(with_value(REZ_L_APPEND, L, i(1000)))));
    CHECK(is_raised(made(with_value(REZ_L_APPEND, L, i(1000))), REZ_MEMORY_HEAP));
    CHECK(is_raised(made(with_value(REZ_L_APPEND, L, rez_text_datum(7))), REZ_MEMORY_HEAP));
    CHECK(is_raised(made(with_pair(REZ_D_SET, D, i(1000), i(257))), REZ_MEMORY_HEAP));
    CHECK(is_done(made(with_pair(REZ_D_SET, D, i(1000), i(256)))) && is_value(made(rez_on(REZ_L_POP, L)), 1000));
    CHECK(is_done(made(with_pair(REZ_D_SET, D, i(1000), i(257)))) && is_value(made(with_key(REZ_D_GET, D, i(1000))), 257));
    CHECK(rez_dict_set(&session, D, i(2), i(-6)) == REZ_RAISED && is_done(made(rez_on(REZ_L_CLEAR, L))));
    CHECK(rez_dict_set(&session, D, i(2), i(-6)) == REZ_DONE && is_done(made(rez_on(REZ_D_CLEAR, D))));
}

static void sets(void) {
    for (int n = 1; n <= 3; n++) CHECK(is_done(made(with_key(REZ_S_ADD, S, i(n)))) && is_done(made(with_key(REZ_S_ADD, S2, i(n + 1)))));
    CHECK(is_truth(made(with_key(REZ_S_HAS, S, i(1))), 1) && is_count(made(rez_on(REZ_S_LEN, S)), 3));
    CHECK(is_truth(made(with_other(REZ_S_SUBSET, S, S2)), 0) && is_truth(made(with_other(REZ_S_DISJOINT, S, S2)), 0));
    CHECK(is_done(made(with_other(REZ_S_AND, S, S2))) && is_count(made(rez_on(REZ_S_LEN, S)), 2));         /* {2, 3} */
    CHECK(is_truth(made(with_other(REZ_S_SUBSET, S, S2)), 1) && is_truth(made(with_other(REZ_S_EQ, S, S2)), 0));
    CHECK(is_done(made(with_other(REZ_S_XOR, S, S2))));                                                   /* {4} */
    CHECK(has(made(rez_on(REZ_S_ITEMS, S)), REZ_R_SET, 1, LIST_OF(4), NULL));
    CHECK(is_done(made(with_other(REZ_S_OR, S, S2))) && is_truth(made(with_other(REZ_S_EQ, S, S2)), 1));   /* {2, 3, 4} */
    CHECK(is_done(made(with_key(REZ_S_DISCARD, S, i(9)))) && is_raised(made(with_key(REZ_S_REMOVE, S, i(9))), REZ_NO_KEY));
    CHECK(is_done(made(with_key(REZ_S_REMOVE, S, i(2)))) && is_done(made(with_key(REZ_S_DISCARD, S, i(3)))));
    CHECK(is_done(made(with_other(REZ_S_ITER, S, 2))) && is_value(made(with_other(REZ_NEXT, 0, 2)), 4));
    CHECK(is_value(made(rez_on(REZ_S_POP, S)), 4) && is_raised(made(rez_on(REZ_S_POP, S)), REZ_NO_KEY));
    CHECK(is_done(made(with_other(REZ_S_SUB, S2, S2))) && is_done(made(rez_on(REZ_S_CLEAR, S2))));
    CHECK(is_count(made(rez_on(REZ_S_LEN, S2)), 0));
}

static void sections(void) {
    uint64_t waits = 9;
    CHECK(rez_begin(&session, D) == REZ_DONE && rez_begin2(&session, L, S) == REZ_DONE && rez_depth(&session) == 2);
    CHECK(rez_end(&session, &waits) == REZ_DONE && waits == 0 && rez_end(&session, NULL) == REZ_DONE);
    CHECK(rez_begin(&session, D) == REZ_DONE && rez_leave(&session) == REZ_DONE && rez_depth(&session) == 0);
    CHECK(rez_enter(&session) == REZ_DONE && rez_enter(&session) == REZ_DONE && rez_quiesce(&session) == REZ_DONE);
}

int main(void) {
    rez_sizes sizes = rez_sizes_of(2, 2, 2, 1);
    sizes.heap = 64;
    CHECK(rez_open(&sizes, &session) == REZ_DONE && rez_enter(&session) == REZ_DONE);
    dicts(), lists(), heaps(), sets(), sections();
    CHECK(rez_close(&session) == REZ_DONE);
    return tell("calls");
}
