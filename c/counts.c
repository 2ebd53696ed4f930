/* The smallest program with the library: two threads raise ten counts in one dict, each raise in a critical section, so that
 * no raise is lost; then the counts are written. cc counts.c $(pkg-config --cflags --libs rezunkai) */
#include "rezunkai.h"
#include <pthread.h>
#include <stdio.h>
#include <stdlib.h>

enum { THREADS = 2, RAISES = 1000, COUNTS = 10, DICT = 0 };
static rez_session sessions[THREADS];

/* A call of a dict; the program ends where it can't be made, and where it raises an exception, which is a reply. */
static rez_reply make(rez_session *session, rez_op op, int64_t key, int64_t value) {
    rez_request request = rez_on(op, DICT);
    rez_reply reply;
    request.key = rez_int(key), request.value = rez_int(value);
    rez_status status = rez_call(session, &request, &reply);
    if (status != REZ_DONE || reply.tag == REZ_R_RAISED) {
        fprintf(stderr, "counts: %s\n", status != REZ_DONE ? rez_status_name(status) : rez_exception_name(reply.raised));
        _Exit(1);
    }
    return reply;
}

static void *work(void *arg) {
    rez_session *session = arg;
    rez_enter(session);
    for (int n = 0; n < RAISES; n++) {
        rez_begin(session, DICT);
        rez_reply count = make(session, REZ_D_GETD, n % COUNTS, 0);
        make(session, REZ_D_SET, n % COUNTS, count.value.value + 1);
        rez_end(session, NULL);
    }
    rez_leave(session);
    return NULL;
}

int main(void) {
    rez_sizes sizes = rez_sizes_of(1, 0, 0, THREADS);
    pthread_t threads[THREADS];
    rez_status status = rez_open(&sizes, sessions);
    if (status != REZ_DONE) return fprintf(stderr, "counts: %s\n", rez_status_name(status)), 1;
    for (int t = 0; t < THREADS; t++) pthread_create(&threads[t], NULL, work, &sessions[t]);
    for (int t = 0; t < THREADS; t++) pthread_join(threads[t], NULL);
    rez_enter(&sessions[0]);
    for (int key = 0; key < COUNTS; key++)
        printf("%d: %lld\n", key, (long long)make(&sessions[0], REZ_D_GET, key, 0).value.value);
    for (int t = 0; t < THREADS; t++) rez_close(&sessions[t]);
    return 0;
}
