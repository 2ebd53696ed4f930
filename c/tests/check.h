/* What the tests share: a check that counts, and a call that has to be done. */
#ifndef CHECK_H
#define CHECK_H
#include "rezunkai.h"
#include <stdio.h>
#include <stdlib.h>

static uint64_t checked, wrong;

/* Counts a check, and says where one fails, the first ten times. */
#define CHECK(holds) check_at((holds) ? 1 : 0, #holds, __FILE__, __LINE__)
static inline void check_at(int holds, const char *text, const char *file, int line) {
    __atomic_add_fetch(&checked, 1, __ATOMIC_RELAXED);
    if (holds) return;
    if (__atomic_add_fetch(&wrong, 1, __ATOMIC_RELAXED) <= 10) fprintf(stderr, "%s:%d: %s\n", file, line, text);
}

/* The reply of a call that has to be done. */
static inline rez_reply reply_to(rez_session *session, rez_request request) {
    rez_reply reply;
    memset(&reply, 0, sizeof reply);
    rez_status status = rez_call(session, &request, &reply);
    if (status != REZ_DONE) fprintf(stderr, "operation %u: %s\n", request.op, rez_status_name(status));
    CHECK(status == REZ_DONE);
    return reply;
}

/* The request of an operation with a key, with a key and a value, with a value, with an index, with another container. */
static inline rez_request with_key(rez_op op, uint32_t container, rez_datum key) {
    rez_request r = rez_on(op, container);
    r.key = key;
    return r;
}
static inline rez_request with_pair(rez_op op, uint32_t container, rez_datum key, rez_datum value) {
    rez_request r = with_key(op, container, key);
    r.value = value;
    return r;
}
static inline rez_request with_value(rez_op op, uint32_t container, rez_datum value) {
    return with_pair(op, container, rez_none(), value);
}
static inline rez_request with_index(rez_op op, uint32_t container, int64_t index, rez_datum value) {
    rez_request r = with_value(op, container, value);
    r.index = index;
    return r;
}
static inline rez_request with_other(rez_op op, uint32_t container, uint32_t other) {
    rez_request r = rez_on(op, container);
    r.other = other;
    return r;
}

static inline int is_int(rez_datum d, int64_t value) { return d.kind == REZ_INT && d.value == value; }
static inline int is_raised(rez_reply r, rez_exception raised) { return r.tag == REZ_R_RAISED && r.raised == (uint32_t)raised; }

/* How many checks were made and failed; the status of the program. */
static inline int tell(const char *name) {
    printf("%s: %llu checks, %llu wrong\n", name, (unsigned long long)checked, (unsigned long long)wrong);
    return wrong != 0;
}
#endif
