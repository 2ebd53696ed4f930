/* What may not be passed: each answers its status, and changes nothing. */
#include "check.h"
#include <pthread.h>

enum { DICT = 0, LIST = 1, SET = 2 };
static rez_session sessions[2];
static uint64_t done, busy, other;

static rez_status status_of(rez_session *session, rez_request request) {
    rez_reply reply;
    return rez_call(session, &request, &reply);
}

/* The calls on one session from several threads at once: each is done, or refused. */
static void *meet(void *arg) {
    (void)arg;
    for (int n = 0; n < 20000; n++) {
        rez_request r = with_pair(REZ_D_SET, DICT, rez_int(7), rez_int(n));
        rez_reply reply;
        rez_status status = rez_step(&sessions[0], &r, &reply);
        uint64_t *count = status == REZ_DONE ? &done : status == REZ_BUSY ? &busy : &other;
        __atomic_add_fetch(count, 1, __ATOMIC_RELAXED);
    }
    return NULL;
}

static void handles(void) {
    rez_session never, closed;
    rez_sizes sizes = rez_sizes_of(1, 0, 0, 1);
    rez_reply reply;
    rez_request get = with_key(REZ_D_GET, DICT, rez_int(1));
    uint64_t count = 77;
    memset(&never, 0, sizeof never);
    CHECK(rez_open(&sizes, &closed) == REZ_DONE && rez_close(&closed) == REZ_DONE);
    rez_session *bad[3] = {NULL, &never, &closed};
    for (int n = 0; n < 3; n++) {
        CHECK(rez_enter(bad[n]) == REZ_NO_HANDLE && rez_leave(bad[n]) == REZ_NO_HANDLE);
        CHECK(rez_step(bad[n], &get, &reply) == REZ_NO_HANDLE && rez_call(bad[n], &get, &reply) == REZ_NO_HANDLE);
        CHECK(rez_items(bad[n], NULL, 0, NULL, 0, &count) == REZ_NO_HANDLE && count == 77);
        CHECK(rez_dict_set(bad[n], DICT, rez_int(1), rez_int(1)) == REZ_NO_HANDLE);
        CHECK(rez_left(bad[n]) == 0 && rez_depth(bad[n]) == 0);
        CHECK(rez_close(bad[n]) == REZ_NO_HANDLE);
    }
    rez_texts texts;
    CHECK(rez_texts_open(&texts) == REZ_DONE);
    rez_session mixed;
    memset(&mixed, 0, sizeof mixed);
    mixed.handle = texts.handle;    /* texts where a session has to be */
    CHECK(rez_enter(&mixed) == REZ_NO_HANDLE && rez_step(&mixed, &get, &reply) == REZ_NO_HANDLE);
    CHECK(rez_texts_close(&texts) == REZ_DONE && rez_texts_close(&texts) == REZ_NO_HANDLE);
    CHECK(rez_texts_close(NULL) == REZ_NO_HANDLE && rez_texts_open(NULL) == REZ_NULL);
}

static void sizes(void) {
    rez_session out[64];
    memset(out, 0, sizeof out);
    rez_sizes s = rez_sizes_of(1, 1, 1, 1), t;
    CHECK(rez_open(NULL, out) == REZ_NULL && rez_open(&s, NULL) == REZ_NULL);
    t = s, t.dicts = 255, CHECK(rez_open(&t, out) == REZ_SIZES);
    t = s, t.dicts = UINT32_MAX, t.lists = UINT32_MAX, t.sets = 2, CHECK(rez_open(&t, out) == REZ_SIZES);
    t = s, t.sessions = 0, CHECK(rez_open(&t, out) == REZ_SIZES);
    t = s, t.sessions = 65, CHECK(rez_open(&t, out) == REZ_SIZES);
    t = s, t.texts = 65537, CHECK(rez_open(&t, out) == REZ_SIZES);
    t = s, t.cursors = 65537, CHECK(rez_open(&t, out) == REZ_SIZES);
    t = s, t.heap = 0, CHECK(rez_open(&t, out) == REZ_SIZES);
    t = s, t.heap = 100, CHECK(rez_open(&t, out) == REZ_SIZES);
    t = s, t.heap = 4160, CHECK(rez_open(&t, out) == REZ_SIZES);
    t = s, t.tables[0] = 0, CHECK(rez_open(&t, out) == REZ_SIZES);
    t = s, t.tables[13] = 1025, CHECK(rez_open(&t, out) == REZ_SIZES);
    for (int n = 0; n < 64; n++) CHECK(out[n].handle.open == 0 && out[n].handle.held.at == NULL);
}

/* Requests that a session refuses; nothing of it changes. */
static void requests(void) {
    rez_session *s = &sessions[0];
    rez_reply reply;
    uint32_t left = rez_left(s);
    rez_request r = with_key(REZ_D_GET, DICT, rez_int(1));
    CHECK(rez_step(s, NULL, &reply) == REZ_NULL && rez_step(s, &r, NULL) == REZ_NULL);
    CHECK(rez_dict_get(s, DICT, rez_int(1), NULL) == REZ_NULL);
    CHECK(status_of(s, with_key(REZ_D_GET, 3, rez_int(1))) == REZ_NAMES);             /* no such container */
    CHECK(status_of(s, with_key(REZ_D_GET, UINT32_MAX, rez_int(1))) == REZ_NAMES);
    CHECK(status_of(s, with_key(REZ_D_GET, LIST, rez_int(1))) == REZ_NAMES);          /* of another kind */
    CHECK(status_of(s, with_value(REZ_L_APPEND, SET, rez_int(1))) == REZ_NAMES);
    CHECK(status_of(s, with_key(REZ_S_ADD, DICT, rez_int(1))) == REZ_NAMES);
    CHECK(status_of(s, with_other(REZ_D_UPDATE, DICT, LIST)) == REZ_NAMES);
    CHECK(status_of(s, with_other(REZ_BEGIN2, DICT, 3)) == REZ_NAMES);
    CHECK(status_of(s, with_other(REZ_NEXT, 0, 0)) == REZ_NAMES);                     /* no such cursor was made */
    CHECK(status_of(s, with_other(REZ_D_ITER, DICT, 16)) == REZ_NAMES);               /* no room for it */
    CHECK(status_of(s, with_key(REZ_D_GET, DICT, rez_text_datum(65536))) == REZ_NAMES);
    CHECK(status_of(s, with_key(REZ_D_GET, DICT, rez_none())) == REZ_NO_CALL);        /* None is no key */
    r.key.kind = 9, CHECK(status_of(s, r) == REZ_NO_CALL);
    r.key = rez_text_datum(0), r.key.value = -1, CHECK(status_of(s, r) == REZ_NO_CALL);
    r.key.value = 1ll << 32, CHECK(status_of(s, r) == REZ_NO_CALL);
    r = with_key(REZ_D_GET, DICT, rez_int(1));
    r.op = 16, CHECK(status_of(s, r) == REZ_NO_CALL);
    r.op = UINT32_MAX, CHECK(status_of(s, r) == REZ_NO_CALL);
    CHECK(status_of(s, rez_on(REZ_END, 0)) == REZ_SECTIONS);
    CHECK(rez_left(s) == left);
    s->busy = 1;                                                                      /* another thread is in a call */
    CHECK(status_of(s, with_key(REZ_D_GET, DICT, rez_int(1))) == REZ_BUSY && rez_leave(s) == REZ_BUSY && rez_close(s) == REZ_BUSY);
    s->busy = 0;
    CHECK(rez_leave(s) == REZ_DONE);
    CHECK(status_of(s, with_key(REZ_D_GET, DICT, rez_int(1))) == REZ_OFFLINE);
    CHECK(rez_enter(s) == REZ_DONE && rez_left(s) == left);
    for (int n = 0; n < 16; n++) CHECK(rez_begin(s, DICT) == REZ_DONE);
    CHECK(rez_begin(s, DICT) == REZ_SECTIONS && rez_depth(s) == 16);                  /* a 17th section */
    for (int n = 0; n < 16; n++) CHECK(rez_end(s, NULL) == REZ_DONE);
    CHECK(rez_depth(s) == 0 && rez_left(s) == left - 32);
}

/* A call that waits is in flight until it is done: no other comes between. */
static void in_flight(void) {
    rez_request append = with_value(REZ_L_APPEND, LIST, rez_int(5)), length = rez_on(REZ_L_LEN, LIST), quiesce = rez_on(REZ_QUIESCE, 0);
    rez_reply reply;
    CHECK(rez_enter(&sessions[1]) == REZ_DONE && rez_begin(&sessions[1], LIST) == REZ_DONE);
    CHECK(rez_step(&sessions[0], &append, &reply) == REZ_AGAIN);
    CHECK(rez_step(&sessions[0], &quiesce, &reply) == REZ_IN_FLIGHT && rez_step(&sessions[0], &length, &reply) == REZ_IN_FLIGHT);
    CHECK(rez_end(&sessions[1], NULL) == REZ_DONE && rez_leave(&sessions[1]) == REZ_DONE);
    CHECK(rez_step(&sessions[0], &append, &reply) == REZ_DONE && reply.waited == 2);
    CHECK(reply_to(&sessions[0], length).count == 1);
}

/* A session with three calls. */
static void calls_left(void) {
    rez_session s;
    rez_sizes few = rez_sizes_of(1, 0, 0, 1);
    few.calls = 3;
    CHECK(rez_open(&few, &s) == REZ_DONE && rez_enter(&s) == REZ_DONE && rez_left(&s) == 3);
    for (int n = 0; n < 3; n++) CHECK(reply_to(&s, with_pair(REZ_D_SET, 0, rez_int(n), rez_int(n))).tag == REZ_R_DONE);
    CHECK(rez_left(&s) == 0 && status_of(&s, rez_on(REZ_D_LEN, 0)) == REZ_CALLS_LEFT);
    CHECK(rez_close(&s) == REZ_DONE);
}

/* What stands in the containers. */
static void nothing_changed(uint64_t pairs, uint64_t items) {
    CHECK(reply_to(&sessions[0], rez_on(REZ_D_LEN, DICT)).count == pairs);
    CHECK(reply_to(&sessions[0], rez_on(REZ_L_LEN, LIST)).count == items);
    CHECK(reply_to(&sessions[0], rez_on(REZ_S_LEN, SET)).count == 0);
    CHECK(is_int(reply_to(&sessions[0], with_key(REZ_D_GET, DICT, rez_int(1))).value, 10));
}

int main(void) {
    rez_sizes s = rez_sizes_of(1, 1, 1, 2);
    CHECK(rez_open(&s, sessions) == REZ_DONE && rez_enter(&sessions[0]) == REZ_DONE);
    reply_to(&sessions[0], with_pair(REZ_D_SET, DICT, rez_int(1), rez_int(10)));
    handles(), sizes(), calls_left();
    requests(), nothing_changed(1, 0);
    in_flight(), nothing_changed(1, 1);
    pthread_t thread[4];
    for (int n = 0; n < 4; n++) pthread_create(&thread[n], NULL, meet, NULL);
    for (int n = 0; n < 4; n++) pthread_join(thread[n], NULL);
    CHECK(done + busy == 80000 && other == 0 && done > 0);
    nothing_changed(2, 1);
    CHECK(strcmp(rez_status_name(REZ_NAMES), "REZ_NAMES") == 0 && strcmp(rez_status_name((rez_status)99), "REZ_?") == 0);
    CHECK(strcmp(rez_exception_name(REZ_NO_KEY), "KeyError") == 0 && strcmp(rez_exception_name(99), "") == 0);
    for (int n = 0; n < 2; n++) CHECK(rez_close(&sessions[n]) == REZ_DONE);
    printf("one session, four threads: %llu done, %llu busy\n", (unsigned long long)done, (unsigned long long)busy);
    return tell("bad");
}
