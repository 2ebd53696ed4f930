/* record SEED CALLS: four threads make so many random calls each on a dict, a list and a set, sections and cursors among
 * them, and keep what they were answered with its stamp and mark. Then the script of these calls, a line ---, and the
 * transcript are written: `./ftpy check` judges whether that is a history of the built-in types. Whoever embeds the library
 * can have his own program judged so: he keeps of each call its text, its reply, its stamp and its mark. */
#include "rezunkai.h"
#include <pthread.h>
#include <stdio.h>
#include <stdlib.h>

enum { THREADS = 4, DICT = 0, LIST = 1, SET = 2, KEYS = 9, TEXTS = 3 };
static const char *const names[3] = {"d", "l", "s"};
static const char *const texts[TEXTS] = {"red", "blue", "gr\xc3\xbcn"};

typedef struct { char call[48], *reply; uint64_t stamp; uint32_t wrote, waited, thread, index; } Row;
typedef struct {
    rez_session *session;
    Row *rows;
    uint64_t random;
    int thread, depth;
    int has_cursor[3];
} Recorder;

static int calls;
static rez_session sessions[THREADS];
static Recorder recorders[THREADS];
static pthread_barrier_t barrier;

static uint32_t draw(Recorder *r, uint32_t below) {
    r->random = r->random * 6364136223846793005ull + 1442695040888963407ull;
    return (uint32_t)(r->random >> 33) % below;
}

/* ---- texts of data and replies */

static int datum_text(char *out, rez_datum d) {
    if (d.kind == REZ_NONE) return sprintf(out, "None");
    if (d.kind == REZ_TEXT) return sprintf(out, "\"%s\"", texts[d.value]);
    return sprintf(out, "%lld", (long long)d.value);
}

static void items_text(rez_session *session, uint32_t tag, char *out) {
    static __thread rez_datum keys[65536], values[65536];
    uint64_t count = 0;
    char *o = out;
    rez_items(session, keys, 65536, values, 65536, &count);
    if (tag == REZ_R_SET && count == 0) { sprintf(out, "set()"); return; }
    *o++ = tag == REZ_R_LIST ? '[' : '{';
    for (uint64_t n = 0; n < count; n++) {
        if (n) o += sprintf(o, ", ");
        o += datum_text(o, tag == REZ_R_LIST ? values[n] : keys[n]);
        if (tag == REZ_R_DICT) o += sprintf(o, ": "), o += datum_text(o, values[n]);
    }
    sprintf(o, "%c", tag == REZ_R_LIST ? ']' : '}');
}

static void reply_text(rez_session *session, const rez_reply *r, char *out) {
    switch (r->tag) {
    case REZ_R_DONE: strcpy(out, "ok"); break;
    case REZ_R_VALUE: datum_text(out, r->value); break;
    case REZ_R_PAIR: out += datum_text(out, r->key); out += sprintf(out, ": "); datum_text(out, r->value); break;
    case REZ_R_TRUTH: strcpy(out, r->count ? "True" : "False"); break;
    case REZ_R_COUNT: sprintf(out, "%llu", (unsigned long long)r->count); break;
    case REZ_R_DICT: case REZ_R_LIST: case REZ_R_SET: items_text(session, r->tag, out); break;
    case REZ_R_STOP: strcpy(out, "StopIteration"); break;
    case REZ_R_ENTERED: strcpy(out, "entered"); break;
    case REZ_R_KEPT: strcpy(out, "kept"); break;
    case REZ_R_SUSPENDED: sprintf(out, "suspended %llu", (unsigned long long)r->count); break;
    default:
        out += sprintf(out, "%s", rez_exception_name(r->raised));
        if (r->raised == REZ_SIZE_CHANGED) strcpy(out, " size");
        if (r->raised == REZ_KEYS_CHANGED) strcpy(out, " keys");
        if (r->raised == REZ_MEMORY_CLASS) sprintf(out, " %llu", (unsigned long long)r->count);
        if (r->raised == REZ_MEMORY_OVER) strcpy(out, " over");
        if (r->raised == REZ_MEMORY_HEAP) strcpy(out, " heap");
    }
}

/* ---- random calls, each with its text */

/* What a call takes beside its container: key, value, index, other container, cursor. */
typedef struct { rez_op op; int container; const char *word, *takes; } Form;
static const Form forms[] = {
    {REZ_D_GET, DICT, "get", "k"}, {REZ_D_GETD, DICT, "getd", "kv"}, {REZ_D_SET, DICT, "set", "kv"}, {REZ_D_SET, DICT, "set", "kv"},
    {REZ_D_DEL, DICT, "del", "k"}, {REZ_D_POP, DICT, "pop", "k"}, {REZ_D_POPD, DICT, "popd", "kv"}, {REZ_D_POPITEM, DICT, "popitem", ""},
    {REZ_D_SETDEFAULT, DICT, "setdefault", "kv"}, {REZ_D_HAS, DICT, "has", "k"}, {REZ_D_LEN, DICT, "len", ""},
    {REZ_D_ITEMS, DICT, "items", ""}, {REZ_D_UPDATE, DICT, "update", "o"}, {REZ_D_EQ, DICT, "eq", "o"}, {REZ_D_ITER, DICT, "iter", "c"},
    {REZ_L_APPEND, LIST, "append", "v"}, {REZ_L_APPEND, LIST, "append", "v"}, {REZ_L_INSERT, LIST, "insert", "iv"}, {REZ_L_GET, LIST, "get", "i"},
    {REZ_L_SET, LIST, "set", "iv"}, {REZ_L_DEL, LIST, "del", "i"}, {REZ_L_POP, LIST, "pop", ""}, {REZ_L_POP_AT, LIST, "pop", "i"},
    {REZ_L_REMOVE, LIST, "remove", "v"}, {REZ_L_INDEX, LIST, "index", "v"}, {REZ_L_COUNT, LIST, "count", "v"}, {REZ_L_HAS, LIST, "has", "v"},
    {REZ_L_REVERSE, LIST, "reverse", ""}, {REZ_L_LEN, LIST, "len", ""}, {REZ_L_ITEMS, LIST, "items", ""}, {REZ_L_EQ, LIST, "eq", "o"},
    {REZ_L_ITER, LIST, "iter", "c"}, {REZ_S_ADD, SET, "add", "k"}, {REZ_S_ADD, SET, "add", "k"}, {REZ_S_DISCARD, SET, "discard", "k"},
    {REZ_S_REMOVE, SET, "remove", "k"}, {REZ_S_POP, SET, "pop", ""}, {REZ_S_HAS, SET, "has", "k"}, {REZ_S_LEN, SET, "len", ""},
    {REZ_S_ITEMS, SET, "items", ""}, {REZ_S_SUBSET, SET, "subset", "o"}, {REZ_S_DISJOINT, SET, "disjoint", "o"}, {REZ_S_ITER, SET, "iter", "c"},
};

static rez_datum draw_key(Recorder *r) {
    uint32_t n = draw(r, KEYS);
    return n < TEXTS ? rez_text_datum(n) : rez_int((int64_t)n - 5);
}

static rez_request draw_form(Recorder *r, char *text) {
    const Form *form = &forms[draw(r, sizeof forms / sizeof forms[0])];
    rez_request q = rez_on(form->op, (uint32_t)form->container);
    text += sprintf(text, "%s %s", form->word, names[form->container]);
    for (const char *c = form->takes; *c; c++) {
        *text++ = ' ', *text = 0;
        switch (*c) {
        case 'k': q.key = draw_key(r), text += datum_text(text, q.key); break;
        case 'v': q.value = draw(r, 8) ? draw_key(r) : rez_none(), text += datum_text(text, q.value); break;
        case 'i': q.index = (int64_t)draw(r, 9) - 4, text += sprintf(text, "%lld", (long long)q.index); break;
        case 'o': q.other = (uint32_t)form->container, text += sprintf(text, "%s", names[form->container]); break;
        default: q.other = (uint32_t)form->container, text += sprintf(text, "c%d", form->container), r->has_cursor[form->container] = 1;
        }
    }
    return q;
}

/* The next call, of which `left` may still come: every section that begins has to end. */
static rez_request draw_call(Recorder *r, int left, char *text) {
    uint32_t what = draw(r, 20), cursor = draw(r, 3), first = draw(r, 3), second = draw(r, 3);
    if (r->depth >= left || (what == 0 && r->depth > 0)) {
        r->depth--, strcpy(text, "end");
        return rez_on(REZ_END, 0);
    }
    if (what == 1) {
        strcpy(text, "quiesce");
        return rez_on(REZ_QUIESCE, 0);
    }
    if (what == 2 && r->has_cursor[cursor]) {
        rez_request q = rez_on(REZ_NEXT, 0);
        q.other = cursor, sprintf(text, "next c%u", cursor);
        return q;
    }
    if (what <= 4 && what >= 3 && r->depth < 3 && left > r->depth + 1) {
        rez_request q = rez_on(what == 3 ? REZ_BEGIN : REZ_BEGIN2, first);
        q.other = second, r->depth++;
        if (what == 3) sprintf(text, "begin %s", names[first]);
        else sprintf(text, "begin %s %s", names[first], names[second]);
        return q;
    }
    return draw_form(r, text);
}

static void *record(void *arg) {
    static __thread char text[1 << 21];
    Recorder *r = arg;
    pthread_barrier_wait(&barrier);
    rez_enter(r->session);
    for (int n = 0; n < calls; n++) {
        Row *row = &r->rows[n];
        rez_reply reply;
        rez_request request = draw_call(r, calls - n, row->call);
        rez_status status = rez_call_once(r->session, &request, &reply);
        if (status != REZ_DONE) fprintf(stderr, "%s: %s\n", row->call, rez_status_name(status)), exit(1);
        row->stamp = reply.stamp, row->wrote = reply.wrote, row->waited = reply.waited;
        row->thread = (uint32_t)r->thread, row->index = (uint32_t)n + 1;
        reply_text(r->session, &reply, text);
        row->reply = strdup(text);
        if (draw(r, 3) == 0) sched_yield();
    }
    rez_leave(r->session);
    return NULL;
}

/* ---- the script and the transcript */

/* By stamp, reads before the write of that number, then by thread, then by index. */
static int in_order(const void *p, const void *q) {
    const Row *a = p, *b = q;
    if (a->stamp != b->stamp) return a->stamp < b->stamp ? -1 : 1;
    if (a->wrote != b->wrote) return a->wrote ? 1 : -1;
    if (a->thread != b->thread) return a->thread < b->thread ? -1 : 1;
    return a->index < b->index ? -1 : 1;
}

static void write_script(const rez_sizes *sizes) {
    printf("dict d\nlist l\nset s\n");
    for (int n = 0; n < 14; n++) printf("tables %d %u\n", n + 3, sizes->tables[n]);
    printf("heap %u\n", sizes->heap);
    for (int t = 0; t < THREADS; t++) {
        printf("thread T%d\n", t);
        for (int n = 0; n < calls; n++) printf("%s\n", recorders[t].rows[n].call);
    }
}

static void write_transcript(void) {
    static const rez_op items[3] = {REZ_D_ITEMS, REZ_L_ITEMS, REZ_S_ITEMS};
    static char text[1 << 21];
    Row *all = calloc((size_t)calls * THREADS, sizeof(Row));
    for (int t = 0; t < THREADS; t++) memcpy(all + (size_t)t * calls, recorders[t].rows, (size_t)calls * sizeof(Row));
    qsort(all, (size_t)calls * THREADS, sizeof(Row), in_order);
    for (int n = 0; n < calls * THREADS; n++) {
        const Row *a = &all[n];
        printf("T%u.%u %c%llu %s = %s", a->thread, a->index, a->wrote ? 'w' : 'r', (unsigned long long)a->stamp, a->call, a->reply);
        if (a->waited) printf(" waited T%u", a->waited - 1);
        printf("\n");
        free(a->reply);
    }
    free(all);
    rez_enter(&sessions[0]);
    for (uint32_t o = 0; o < 3; o++) {
        rez_reply reply;
        rez_request request = rez_on(items[o], o);
        rez_call_once(&sessions[0], &request, &reply);
        reply_text(&sessions[0], &reply, text);
        printf("%s = %s\n", names[o], text);
    }
}

int main(int words, char **word) {
    uint64_t seed = words > 1 ? strtoull(word[1], NULL, 10) : 1;
    calls = words > 2 ? atoi(word[2]) : 100;
    rez_sizes sizes = rez_sizes_of(1, 1, 1, THREADS);
    if (calls < 1 || calls > 125000 || rez_open(&sizes, sessions) != REZ_DONE) return 1;
    pthread_barrier_init(&barrier, NULL, THREADS);
    pthread_t thread[THREADS];
    for (int t = 0; t < THREADS; t++) {
        recorders[t] = (Recorder){&sessions[t], calloc((size_t)calls, sizeof(Row)), seed * 977 + (uint64_t)t, t, 0, {0}};
        pthread_create(&thread[t], NULL, record, &recorders[t]);
    }
    for (int t = 0; t < THREADS; t++) pthread_join(thread[t], NULL);
    write_script(&sizes);
    printf("---\n");
    write_transcript();
    for (int t = 0; t < THREADS; t++) rez_close(&sessions[t]), free(recorders[t].rows);
    return 0;
}
