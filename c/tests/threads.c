/* threads THREADS CALLS: threads on one dict, one list and one set, each with so many calls; every answer is
 * checked. Each thread knows the values at its own keys, items and elements, and of those of others it knows the form:
 * an item says whose it is, and its number never falls. Sections raise one count, and move between two pairs whose sum
 * stays. */
#include "check.h"
#include <pthread.h>

enum { OWN = 12, DICT = 0, LIST = 1, SET = 2, SUM = 1000000 };
static uint32_t threads;
static uint64_t calls;
static rez_session sessions[64];
static pthread_barrier_t barrier;
static uint64_t waited[64], sections[64], made[64], refused[64];
static int64_t own[64][OWN];    /* what the thread's pairs are; 0 where there is none */

static uint64_t next(uint64_t *x) { return (*x = *x * 6364136223846793005ull + 1442695040888963407ull) >> 33; }

/* The key of place p of thread t. The two keys below all of them are those whose sum stays. */
static int64_t key_of(uint32_t t, uint64_t p) { return 2 + (int64_t)(p * threads + t); }

typedef struct { rez_session *session; uint32_t thread; uint64_t last; int64_t seen[64]; } Worker;

/* A call, whose stamp is no less than the last one. */
static rez_reply make(Worker *w, rez_request request) {
    rez_reply reply = reply_to(w->session, request);
    CHECK(reply.stamp >= w->last);
    w->last = reply.stamp;
    waited[w->thread] += reply.waited != 0;
    made[w->thread]++;
    return reply;
}

/* Whether the call found every table taken, as it may where other threads have no processor for a while: it has changed
 * nothing then, which what follows shows. */
static int is_refused(Worker *w, rez_reply reply) {
    if (!is_raised(reply, REZ_MEMORY_CLASS)) return 0;
    CHECK(!reply.wrote);
    refused[w->thread]++;
    return 1;
}

static void on_dict(Worker *w, uint64_t r) {
    uint64_t p = r % OWN;
    int64_t *mine = &own[w->thread][p], key = key_of(w->thread, p);
    switch (r / OWN % 8) {
    case 0: {
        int64_t value = (int64_t)(made[w->thread] + 1) * 4096 + key;
        rez_reply reply = make(w, with_pair(REZ_D_SET, DICT, rez_int(key), rez_int(value)));
        if (is_refused(w, reply)) break;
        CHECK(reply.tag == REZ_R_DONE && reply.wrote);
        *mine = value;
        break;
    }
    case 1: {
        rez_reply reply = make(w, with_pair(REZ_D_POPD, DICT, rez_int(key), rez_none()));
        CHECK(reply.tag == REZ_R_VALUE);
        CHECK(*mine ? is_int(reply.value, *mine) : reply.value.kind == REZ_NONE);
        *mine = 0;
        break;
    }
    case 2: case 3: {
        rez_reply reply = make(w, with_key(REZ_D_GET, DICT, rez_int(key)));
        if (*mine) CHECK(reply.tag == REZ_R_VALUE && is_int(reply.value, *mine));
        else CHECK(is_raised(reply, REZ_NO_KEY));
        break;
    }
    case 4: {
        rez_reply reply = make(w, with_key(REZ_D_HAS, DICT, rez_int(key)));
        CHECK(reply.tag == REZ_R_TRUTH && reply.count == (*mine != 0));
        break;
    }
    default: {
        int64_t other = key_of((uint32_t)(r / 97 % threads), p);
        rez_reply reply = make(w, with_key(REZ_D_GET, DICT, rez_int(other)));
        if (reply.tag == REZ_R_VALUE) CHECK(reply.value.kind == REZ_INT && reply.value.value % 4096 == other);
        else CHECK(is_raised(reply, REZ_NO_KEY));
    }
    }
}

/* Item t + 1 of the list is thread t's: 64 times a number that never falls, and t. */
static void on_list(Worker *w, uint64_t r) {
    uint32_t t = w->thread, other = (uint32_t)(r / 8 % threads);
    if (r % 8 == 0) {
        w->seen[t]++;
        rez_reply reply = make(w, with_index(REZ_L_SET, LIST, t + 1, rez_int(w->seen[t] * 64 + t)));
        CHECK(reply.tag == REZ_R_DONE);
        return;
    }
    rez_reply reply = make(w, with_index(REZ_L_GET, LIST, other + 1, rez_none()));
    CHECK(reply.tag == REZ_R_VALUE && reply.value.kind == REZ_INT && (uint32_t)(reply.value.value % 64) == other);
    if (other == t) CHECK(reply.value.value / 64 == w->seen[t]);
    CHECK(reply.value.value / 64 >= w->seen[other]);
    w->seen[other] = reply.value.value / 64;
}

static void on_set(Worker *w, uint64_t r) {
    int64_t key = key_of(w->thread, r % OWN);
    rez_reply reply = make(w, with_key(REZ_S_HAS, SET, rez_int(key)));
    CHECK(reply.tag == REZ_R_TRUTH && reply.count == 0);
    if (r / OWN % 4) return;
    rez_reply added = make(w, with_key(REZ_S_ADD, SET, rez_int(key)));
    int is_there = !is_refused(w, added);
    if (is_there) CHECK(added.tag == REZ_R_DONE && added.wrote);
    reply = make(w, with_key(REZ_S_HAS, SET, rez_int(key)));
    CHECK(reply.tag == REZ_R_TRUTH && reply.count == (uint64_t)is_there);
    if (is_there) CHECK(make(w, with_key(REZ_S_REMOVE, SET, rez_int(key))).tag == REZ_R_DONE);
}

/* Raises item 0 of the list, and moves from pair 0 of the dict to pair 1, in a section on both: nobody comes between. */
static void in_section(Worker *w) {
    CHECK(make(w, with_other(REZ_BEGIN2, DICT, LIST)).tag == REZ_R_ENTERED);
    int64_t count = make(w, with_index(REZ_L_GET, LIST, 0, rez_none())).value.value;
    int64_t from = make(w, with_key(REZ_D_GET, DICT, rez_int(0))).value.value;
    int64_t to = make(w, with_key(REZ_D_GET, DICT, rez_int(1))).value.value;
    CHECK(from + to == SUM);
    CHECK(to == count);
    CHECK(make(w, with_index(REZ_L_SET, LIST, 0, rez_int(count + 1))).tag == REZ_R_DONE);
    CHECK(make(w, with_pair(REZ_D_SET, DICT, rez_int(0), rez_int(from - 1))).tag == REZ_R_DONE);
    CHECK(make(w, with_pair(REZ_D_SET, DICT, rez_int(1), rez_int(to + 1))).tag == REZ_R_DONE);
    CHECK(make(w, rez_on(REZ_END, 0)).tag == REZ_R_KEPT);
    sections[w->thread]++;
}

static void *work(void *arg) {
    Worker w = {&sessions[(intptr_t)arg], (uint32_t)(intptr_t)arg, 0, {0}};
    uint64_t x = w.thread + 1;
    pthread_barrier_wait(&barrier);
    CHECK(rez_enter(w.session) == REZ_DONE);
    for (uint64_t round = 0; made[w.thread] < calls; round++) {
        uint64_t r = next(&x);
        switch (r % 16) {
        case 0: on_set(&w, r / 16); break;
        case 1: case 2: case 3: on_list(&w, r / 16); break;
        default: on_dict(&w, r / 16);
        }
        if (round % 64 == 0) CHECK(make(&w, rez_on(REZ_QUIESCE, 0)).tag == REZ_R_DONE);
        if (round % 4096 == 0) in_section(&w);
    }
    /* who waits while he is online keeps every retired table from being free again */
    CHECK(rez_leave(w.session) == REZ_DONE);
    return NULL;
}

/* What stands in the end is what the threads know. */
static void look_at_the_end(void) {
    rez_session *s = &sessions[0];
    uint64_t all = 0, count = 0, raised = 0;
    static rez_datum keys[4096], values[4096];
    for (uint32_t t = 0; t < threads; t++) raised += sections[t];
    CHECK(rez_enter(s) == REZ_DONE);
    CHECK(is_int(reply_to(s, with_index(REZ_L_GET, LIST, 0, rez_none())).value, (int64_t)raised));
    rez_reply items = reply_to(s, rez_on(REZ_D_ITEMS, DICT));
    CHECK(items.tag == REZ_R_DICT);
    CHECK(rez_items(s, keys, 4096, values, 4096, &count) == REZ_DONE && count == items.count);
    for (uint64_t n = 0; n < count; n++) {
        int64_t key = keys[n].value - 2;
        if (key < 0) CHECK(is_int(values[n], key == -2 ? SUM - (int64_t)raised : (int64_t)raised));
        else CHECK(is_int(values[n], own[key % threads][key / threads]));
    }
    for (uint32_t t = 0; t < threads; t++)
        for (int p = 0; p < OWN; p++) all += own[t][p] != 0;
    CHECK(count == all + 2);
    CHECK(reply_to(s, rez_on(REZ_S_LEN, SET)).count == 0);
}

int main(int words, char **word) {
    threads = words > 1 ? (uint32_t)atoi(word[1]) : 4, calls = words > 2 ? strtoull(word[2], NULL, 10) : 100000;
    rez_sizes sizes = rez_sizes_of(1, 1, 1, threads);
    /* a thread that has no processor for a while keeps all that the others retire: enough for a while */
    for (int n = 0; n <= 8; n++)
        if (sizes.tables[n] < 8 * threads) sizes.tables[n] = 8 * threads;
    rez_status status = rez_open(&sizes, sessions);
    if (status != REZ_DONE) { fprintf(stderr, "rez_open: %s\n", rez_status_name(status)); return 1; }
    CHECK(rez_enter(&sessions[0]) == REZ_DONE);
    for (uint32_t t = 0; t <= threads; t++) reply_to(&sessions[0], with_value(REZ_L_APPEND, LIST, rez_int(t ? t - 1 : 0)));
    reply_to(&sessions[0], with_pair(REZ_D_SET, DICT, rez_int(0), rez_int(SUM)));
    reply_to(&sessions[0], with_pair(REZ_D_SET, DICT, rez_int(1), rez_int(0)));
    CHECK(rez_leave(&sessions[0]) == REZ_DONE);
    pthread_barrier_init(&barrier, NULL, threads);
    pthread_t thread[64];
    for (uint32_t t = 0; t < threads; t++) pthread_create(&thread[t], NULL, work, (void *)(intptr_t)t);
    for (uint32_t t = 0; t < threads; t++) pthread_join(thread[t], NULL);
    look_at_the_end();
    uint64_t all = 0, marks = 0, entered = 0, without = 0;
    for (uint32_t t = 0; t < threads; t++) all += made[t], marks += waited[t], entered += sections[t], without += refused[t];
    for (uint32_t t = 0; t < threads; t++) CHECK(rez_close(&sessions[t]) == REZ_DONE);
    pthread_barrier_destroy(&barrier);
    printf("%u threads, %llu calls, %llu waited, %llu sections, %llu without a table\n", threads, (unsigned long long)all,
           (unsigned long long)marks, (unsigned long long)entered, (unsigned long long)without);
    return tell("threads");
}
