/* Texts: four threads number the same 2,000 texts, each in an order of its own, and use them as keys. */
#include "check.h"
#include <pthread.h>

enum { THREADS = 4, TEXTS = 2000 };
static rez_texts texts;
static rez_session sessions[THREADS];
static uint32_t numbers[THREADS][TEXTS];
static const uint32_t step[THREADS] = {1, 3, 7, 9};    /* each without a common factor with TEXTS */

static size_t text_of(uint32_t n, char *out) { return (size_t)sprintf(out, n % 2 ? "key %u" : "Schl\xc3\xbcssel %u", n); }

static void *work(void *arg) {
    uint32_t t = (uint32_t)(intptr_t)arg;
    CHECK(rez_enter(&sessions[t]) == REZ_DONE);
    for (uint32_t n = 0, at = t * 500; n < TEXTS; n++, at = (at + step[t]) % TEXTS) {
        char text[32], back[32];
        size_t length = text_of(at, text);
        uint64_t found = 0;
        uint32_t number = UINT32_MAX;
        CHECK(rez_text(&texts, text, length, &number) == REZ_DONE && number < TEXTS);
        numbers[t][at] = number;
        CHECK(rez_text_bytes(&texts, number, back, sizeof back, &found) == REZ_DONE);
        CHECK(found == length && memcmp(text, back, length) == 0);
        rez_reply reply = reply_to(&sessions[t], with_pair(REZ_D_SETDEFAULT, 0, rez_text_datum(number), rez_int(at)));
        CHECK(reply.tag == REZ_R_VALUE && is_int(reply.value, at));
    }
    CHECK(rez_leave(&sessions[t]) == REZ_DONE);
    return NULL;
}

static void bad_texts(void) {
    static const char *const not_utf8[] = {"\xff", "a\x80", "\xc0\xaf", "\xed\xa0\x80", "\xf4\x90\x80\x80", "\xe2\x82"};
    uint32_t number = 5;
    uint64_t length = 6;
    char room[2];
    for (int n = 0; n < 6; n++) CHECK(rez_text(&texts, not_utf8[n], strlen(not_utf8[n]), &number) == REZ_NOT_UTF8 && number == 5);
    CHECK(rez_text(NULL, "a", 1, &number) == REZ_NO_HANDLE && rez_text(&texts, NULL, 1, &number) == REZ_NULL);
    CHECK(rez_text(&texts, "a", 1, NULL) == REZ_NULL);
    CHECK(rez_text_bytes(&texts, TEXTS, room, 2, &length) == REZ_NO_TEXT && length == 6);
    CHECK(rez_text_bytes(&texts, 0, NULL, 2, &length) == REZ_NULL && rez_text_bytes(&texts, 0, room, 2, NULL) == REZ_NULL);
    CHECK(rez_text(&texts, NULL, 0, &number) == REZ_DONE && number == TEXTS);             /* the empty text */
    CHECK(rez_text(&texts, "a\0b", 3, &number) == REZ_DONE && number == TEXTS + 1);       /* a 0 is a character */
    CHECK(rez_text_bytes(&texts, TEXTS + 1, room, 2, &length) == REZ_DONE && length == 3 && memcmp(room, "a", 2) == 0);
    for (uint32_t n = TEXTS + 2; n < 65536; n++) {
        char text[32];
        rez_status status = rez_text(&texts, text, (size_t)sprintf(text, "more %u", n), &number);
        if (status != REZ_DONE || number != n) CHECK(status == REZ_DONE && number == n);
    }
    CHECK(rez_text(&texts, "one more", 8, &number) == REZ_FULL && number == 65535);
    CHECK(rez_text(&texts, "", 0, &number) == REZ_DONE && number == TEXTS);
}

int main(void) {
    rez_sizes sizes = rez_sizes_of(1, 0, 0, THREADS);
    CHECK(rez_open(&sizes, sessions) == REZ_DONE && rez_texts_open(&texts) == REZ_DONE);
    pthread_t thread[THREADS];
    for (int t = 0; t < THREADS; t++) pthread_create(&thread[t], NULL, work, (void *)(intptr_t)t);
    for (int t = 0; t < THREADS; t++) pthread_join(thread[t], NULL);
    static char given[TEXTS];
    for (int n = 0; n < TEXTS; n++) {
        for (int t = 1; t < THREADS; t++) CHECK(numbers[t][n] == numbers[0][n]);
        CHECK(given[numbers[0][n]]++ == 0);
    }
    bad_texts();
    CHECK(rez_texts_close(&texts) == REZ_DONE);
    for (int t = 0; t < THREADS; t++) CHECK(rez_close(&sessions[t]) == REZ_DONE);
    return tell("texts");
}
