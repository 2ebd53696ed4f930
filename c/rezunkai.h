/* rezunkai.h - dicts, lists and sets that many threads share, for C and C++
 *
 * NAME
 *     rez_open, rez_close, rez_enter, rez_leave, rez_call, rez_step, rez_items, rez_texts_open, rez_text
 *
 * SYNOPSIS
 *     #include <rezunkai.h>
 *     cc program.c $(pkg-config --cflags --libs rezunkai) -pthread
 *
 * DESCRIPTION
 *     An engine has dicts, lists and sets, numbered from 0: the dicts first, then the lists, then the sets. It is opened
 *     once, with all of them, with its tables and with its sessions; a session makes the calls of one thread. Calls on one
 *     container from many threads happen one after the other, in one order, as if each were made alone. What a call
 *     replies is what Python's built-in type would reply at that place of the order.
 *
 *     Keys are integers of 64 bits and strings, values those and None. A string is named by its number (rez_text).
 *
 * WHICH THREAD
 *     A session may be used by any thread, by one call at a time. A call that comes while another one is in the same
 *     session answers REZ_BUSY, and nothing changes. So do texts (rez_texts), for which rez_text waits in place of it.
 *     Different sessions may be in calls at the same time: that is what they are for. No function may be called from a
 *     signal handler, or from the forked child of a process with threads.
 *
 * WHO OWNS WHAT
 *     rez_open fills handles that its caller owns, and each of them goes back by one rez_close. What an engine takes is
 *     freed with the last of its sessions. Requests, replies and arrays are the caller's; nothing of them is kept. A handle
 *     is not to be copied: a copy of a handle that was closed points to freed memory.
 *
 * WHO BLOCKS
 *     rez_step never waits. rez_call and what is built on it wait while another thread has the lock of a container that
 *     the call needs: they spin for a moment, and then yield. A session that is online (rez_enter) keeps each table that
 *     any session retires from being free again until it makes a REZ_QUIESCE or goes offline (rez_leave). So a thread
 *     leaves before it blocks, sleeps or waits for another one, and a thread that writes much quiesces now and then.
 *
 * ERRORS
 *     Each function that may fail answers a rez_status, and where it isn't REZ_DONE nothing has changed, except that after
 *     REZ_AGAIN the same request is to come next in this session, and that after REZ_NO_MEMORY the call was given up and
 *     the session's open sections are ended. Exceptions of Python are replies, and not errors: REZ_R_RAISED.
 *
 * LIMITS
 *     256 containers, 64 sessions, 2^32 - 1 calls of a session, 16 open sections of a session, 43,690 pairs in a dict,
 *     39,321 elements in a set, 65,536 items in a list, 65,536 texts, 65,536 cursors of a session, 1 to 1,024 tables of a
 *     class, 64 to 4,096 places for boxed values of a session. None of them can grow after rez_open.
 *
 * BOXED VALUES
 *     An integer outside -5..256 or a string takes a place of the session that stores it with REZ_D_SET, REZ_D_SETDEFAULT,
 *     REZ_L_APPEND, REZ_L_INSERT or REZ_L_SET. Where all of its places are in use, the call raises REZ_MEMORY_HEAP. With
 *     REZ_L_EXTEND, REZ_D_UPDATE and REZ_D_COPYTO another container has the value in the same place. The place is free again once no
 *     container has it: at once where the session alone brought the value to containers and let it go, and else at the latest
 *     with its next REZ_QUIESCE or rez_leave.
 *
 * WHAT IS PROVED
 *     The library is proved: it is memory-safe and each export ends, given handles as rez_open fills them, one call at a
 *     time. This header and its loops are tested, not proved.
 */
#ifndef REZUNKAI_H
#define REZUNKAI_H
#include <sched.h>
#include <stddef.h>
#include <stdint.h>
#include <string.h>
#include <sys/select.h>
#ifdef __cplusplus
extern "C" {
#endif

/* ---- what functions answer */

typedef enum {
    REZ_DONE = 0,        /* it is done */
    REZ_AGAIN = 1,       /* another thread has a lock: the same request comes next in this session, after a pause */
    REZ_NO_MEMORY = 2,   /* malloc failed; the call and the open sections were given up */
    REZ_OFFLINE = 3,     /* the session is offline: rez_enter comes first */
    REZ_NAMES = 4,       /* the request names a container, a cursor or a string that isn't there, or one of another kind */
    REZ_SECTIONS = 5,    /* a 17th section would begin, or one would end where none is open */
    REZ_CALLS_LEFT = 6,  /* the session has made all calls that it may make */
    REZ_IN_FLIGHT = 7,   /* another request was answered REZ_AGAIN, and comes next */
    REZ_NO_CALL = 8,     /* the request has no such operation, or a key or a value of no kind */
    REZ_SIZES = 9,       /* the sizes don't keep the limits */
    REZ_NO_HANDLE = 10,  /* the handle is null, was never filled or was closed, or is of something else */
    REZ_NOT_UTF8 = 11,   /* the text isn't UTF-8 */
    REZ_FULL = 12,       /* all 65,536 numbers of texts are given out */
    REZ_NO_TEXT = 13,    /* no text has this number */
    REZ_RAISED = 14,     /* rez_dict_get, rez_dict_set: an exception was raised */
    REZ_BUSY = 15,       /* another thread is in a call of this handle */
    REZ_NULL = 16        /* a pointer that has to point to something is null */
} rez_status;

/* ---- what is passed */

typedef struct { void *at; } rez_held;
typedef struct { rez_held held; uint32_t open, pad; } rez_handle;   /* of the library; its fields are not read or written */
typedef struct { rez_handle handle; uint32_t busy; } rez_session;   /* all bytes 0 before rez_open */
typedef struct { rez_handle handle; uint32_t busy; } rez_texts;     /* all bytes 0 before rez_texts_open */

/* How large an engine is. rez_sizes_of fills one with what most programs want. */
typedef struct {
    uint32_t dicts, lists, sets;    /* at most 256 in all */
    uint32_t sessions;              /* 1 to 64 */
    uint32_t calls;                 /* how many calls each session may make */
    uint32_t cursors;               /* how many cursors each session has room for, at most 65,536 */
    uint32_t texts;                 /* how many strings may be keys, at most 65,536; a value may be any string */
    uint32_t heap;                  /* places for boxed values of each session: 64 to 4,096 in steps of 64 */
    uint32_t tables[14];            /* tables of 2^3, 2^4, .. 2^16 slots: 1 to 1,024 of each */
} rez_sizes;

typedef enum { REZ_NONE = 0, REZ_INT = 1, REZ_TEXT = 2 } rez_kind;
typedef struct { uint32_t kind, pad; int64_t value; } rez_datum;    /* a key or a value; of a text its number */

/* A request: rez_on fills one, and the fields that the operation speaks of are set after it. */
typedef struct {
    uint32_t op;          /* a rez_op */
    uint32_t container;   /* the number of the container */
    uint32_t other;       /* the other container, or the cursor */
    uint32_t pad;
    rez_datum key, value;
    int64_t index, end;   /* of lists: an index, or the two of a slice */
} rez_request;

typedef struct {
    uint32_t tag;           /* a rez_tag */
    uint32_t raised;        /* a rez_exception where the tag is REZ_R_RAISED */
    rez_datum key, value;
    uint64_t count;         /* of REZ_R_TRUTH 0 or 1; of the class of a MemoryError; else how many, or at which index */
    uint64_t stamp;         /* how many writes of all sessions come before it */
    uint32_t wrote;         /* whether it is a write itself */
    uint32_t waited;        /* the session that it waited for first, plus 1; 0 where it didn't wait */
} rez_reply;

/* The operations, with what they read of a request beside the container. The reply is that of Python's call. */
typedef enum {
    REZ_D_GET = 0,      /* d[key] */
    REZ_D_GETD,         /* d.get(key, value) */
    REZ_D_SET,          /* d[key] = value */
    REZ_D_DEL,          /* del d[key] */
    REZ_D_POP,          /* d.pop(key) */
    REZ_D_POPD,         /* d.pop(key, value) */
    REZ_D_POPITEM,      /* d.popitem() */
    REZ_D_SETDEFAULT,   /* d.setdefault(key, value) */
    REZ_D_HAS,          /* key in d */
    REZ_D_LEN,          /* len(d) */
    REZ_D_ITEMS,        /* list(d.items()); rez_items copies it */
    REZ_D_UPDATE,       /* d.update(other) */
    REZ_D_CLEAR,        /* d.clear() */
    REZ_D_COPYTO,       /* other becomes a copy of d */
    REZ_D_EQ,           /* d == other */
    REZ_D_ITER,         /* cursor other = iter(d.items()) */
    REZ_L_APPEND = 32,  /* l.append(value) */
    REZ_L_INSERT,       /* l.insert(index, value) */
    REZ_L_GET,          /* l[index] */
    REZ_L_SET,          /* l[index] = value */
    REZ_L_DEL,          /* del l[index] */
    REZ_L_POP,          /* l.pop() */
    REZ_L_POP_AT,       /* l.pop(index) */
    REZ_L_REMOVE,       /* l.remove(value) */
    REZ_L_INDEX,        /* l.index(value) */
    REZ_L_COUNT,        /* l.count(value) */
    REZ_L_HAS,          /* value in l */
    REZ_L_REVERSE,      /* l.reverse() */
    REZ_L_EXTEND,       /* l.extend(other) */
    REZ_L_SLICE,        /* l[index:end]; rez_items copies it */
    REZ_L_CLEAR,        /* l.clear() */
    REZ_L_LEN,          /* len(l) */
    REZ_L_ITEMS,        /* list(l); rez_items copies it */
    REZ_L_EQ,           /* l == other */
    REZ_L_ITER,         /* cursor other = iter(l) */
    REZ_S_ADD = 64,     /* s.add(key) */
    REZ_S_DISCARD,      /* s.discard(key) */
    REZ_S_REMOVE,       /* s.remove(key) */
    REZ_S_POP,          /* s.pop() */
    REZ_S_HAS,          /* key in s */
    REZ_S_LEN,          /* len(s) */
    REZ_S_ITEMS,        /* list(s); rez_items copies it */
    REZ_S_EQ,           /* s == other */
    REZ_S_OR,           /* s |= other */
    REZ_S_AND,          /* s &= other */
    REZ_S_SUB,          /* s -= other */
    REZ_S_XOR,          /* s ^= other */
    REZ_S_SUBSET,       /* s <= other */
    REZ_S_DISJOINT,     /* s.isdisjoint(other) */
    REZ_S_CLEAR,        /* s.clear() */
    REZ_S_ITER,         /* cursor other = iter(s) */
    REZ_NEXT = 96,      /* next(cursor other) */
    REZ_BEGIN,          /* begins a critical section on the container (Py_BEGIN_CRITICAL_SECTION) */
    REZ_BEGIN2,         /* begins one on the container and the other (Py_BEGIN_CRITICAL_SECTION2) */
    REZ_END,            /* ends the innermost section: REZ_R_KEPT or REZ_R_SUSPENDED */
    REZ_QUIESCE         /* a quiescent point: tables that others retired, and places whose values others dropped, may be free again */
} rez_op;

typedef enum {
    REZ_R_DONE, REZ_R_VALUE, REZ_R_PAIR, REZ_R_TRUTH, REZ_R_COUNT, REZ_R_DICT, REZ_R_LIST, REZ_R_SET, REZ_R_STOP,
    REZ_R_ENTERED, REZ_R_KEPT, REZ_R_SUSPENDED, REZ_R_RAISED,
    REZ_R_WORLD          /* what all containers have; no request has this reply yet */
} rez_tag;

typedef enum {
    REZ_NO_KEY = 1,      /* KeyError */
    REZ_NO_INDEX,        /* IndexError */
    REZ_NO_VALUE,        /* ValueError */
    REZ_SIZE_CHANGED,    /* RuntimeError: the size changed in a walk */
    REZ_KEYS_CHANGED,    /* RuntimeError: the keys changed in a walk */
    REZ_MEMORY_CLASS,    /* MemoryError: every table of class `count` was taken */
    REZ_MEMORY_OVER,     /* MemoryError: more than the largest table holds */
    REZ_MEMORY_HEAP,     /* MemoryError: the session had no place left for a boxed value */
    REZ_DEQUE_CHANGED    /* RuntimeError: a deque was changed in a walk; nothing raises it yet */
} rez_exception;

/* ---- what the library exports, without any test of pointers: use the functions below in place of these */

typedef struct { uint32_t dicts, lists, sets, sessions, calls, cursors, texts, heap; } ft_sizes;
uint32_t ft_open(const ft_sizes *sizes, const uint32_t *tables, size_t table_count, rez_handle *out, size_t out_count);
uint32_t ft_texts_open(rez_handle *out);
uint32_t ft_close(rez_held held, uint32_t open);
uint32_t ft_enter(rez_handle *session);
uint32_t ft_leave(rez_handle *session);
uint32_t ft_left(rez_handle *session);
uint32_t ft_depth(rez_handle *session);
uint32_t ft_step(rez_handle *session, const rez_request *request, rez_reply *reply);
uint64_t ft_items(rez_handle *session, rez_datum *keys, size_t key_count, rez_datum *values, size_t value_count);
uint32_t ft_dict_get(rez_handle *session, uint32_t dict, rez_datum key, rez_datum *value);
uint32_t ft_dict_set(rez_handle *session, uint32_t dict, rez_datum key, rez_datum value);
uint32_t ft_text_number(rez_handle *texts, const uint8_t *text, size_t length, uint32_t *number);
uint32_t ft_text_bytes(rez_handle *texts, uint32_t number, uint8_t *bytes, size_t room, uint64_t *length);

/* ---- names of statuses and exceptions */

/* The name of a status, as "REZ_DONE"; "REZ_?" for any other number. It may be called from any thread at any time. */
static inline const char *rez_status_name(rez_status status) {
    static const char *const names[] = {
        "REZ_DONE", "REZ_AGAIN", "REZ_NO_MEMORY", "REZ_OFFLINE", "REZ_NAMES", "REZ_SECTIONS", "REZ_CALLS_LEFT",
        "REZ_IN_FLIGHT", "REZ_NO_CALL", "REZ_SIZES", "REZ_NO_HANDLE", "REZ_NOT_UTF8", "REZ_FULL", "REZ_NO_TEXT",
        "REZ_RAISED", "REZ_BUSY", "REZ_NULL"};
    unsigned number = (unsigned)status;
    return number < sizeof names / sizeof names[0] ? names[number] : "REZ_?";
}

/* The name of the Python exception that a reply raised, as "KeyError"; "" for any other number. */
static inline const char *rez_exception_name(uint32_t raised) {
    static const char *const names[] = {"", "KeyError", "IndexError", "ValueError", "RuntimeError", "RuntimeError",
                                        "MemoryError", "MemoryError", "MemoryError", "RuntimeError"};
    return raised < sizeof names / sizeof names[0] ? names[raised] : "";
}

/* ---- data */

static inline rez_datum rez_none(void) { rez_datum d = {REZ_NONE, 0, 0}; return d; }
static inline rez_datum rez_int(int64_t value) { rez_datum d = {REZ_INT, 0, value}; return d; }
static inline rez_datum rez_text_datum(uint32_t number) { rez_datum d = {REZ_TEXT, 0, (int64_t)number}; return d; }

/* A request of this operation on this container, with all else 0. */
static inline rez_request rez_on(rez_op op, uint32_t container) {
    rez_request r;
    memset(&r, 0, sizeof r);
    r.op = (uint32_t)op;
    r.container = container;
    return r;
}

/* ---- the flag of a handle that is in a call */

static inline int rez_take(uint32_t *busy) { return __atomic_exchange_n(busy, 1, __ATOMIC_SEQ_CST) == 0; }
static inline void rez_give(uint32_t *busy) { __atomic_store_n(busy, 0, __ATOMIC_SEQ_CST); }

/* The pause after that many tries: the thread keeps its processor at first, and then yields it. */
static inline void rez_pause(unsigned tries) {
    if (tries < 8) {
        for (unsigned n = 0; n < (1u << (tries < 6 ? tries : 6)); n++) {
#if defined(__x86_64__) || defined(__i386__)
            __builtin_ia32_pause();
#endif
        }
    } else {
        sched_yield();
    }
}

/* ---- opening and closing */

/* rez_sizes_of - the sizes of an engine with so many containers and sessions: 2^32 - 1 calls a session, 16 cursors, 65,536
 * strings, 4,096 places for boxed values a session, and tables of which an engine takes some 16 MB. For many or great containers
 * raise `tables`: a container of n slots takes one table of 2^k >= n slots, and each growth takes the next. */
static inline rez_sizes rez_sizes_of(uint32_t dicts, uint32_t lists, uint32_t sets, uint32_t sessions) {
    rez_sizes s = {dicts, lists, sets, sessions, UINT32_MAX, 16, 65536, 4096,
                   {512, 256, 256, 128, 128, 64, 32, 16, 8, 8, 4, 2, 1, 1}};
    return s;
}

/* rez_open - opens an engine, and fills sizes->sessions sessions, which are offline.
 * Errors: REZ_NULL, REZ_SIZES, REZ_NO_MEMORY; the sessions are as before then. What stood in them is forgotten, and not
 * closed. It blocks nobody, and takes the memory of all tables at once, some 50 bytes a slot, and twice that for a moment. */
static inline rez_status rez_open(const rez_sizes *sizes, rez_session *sessions) {
    rez_handle opened[64];
    if (sizes == NULL || sessions == NULL) return REZ_NULL;
    if (sizes->sessions < 1 || sizes->sessions > 64) return REZ_SIZES;
    ft_sizes plain = {sizes->dicts, sizes->lists, sizes->sets, sizes->sessions,
                      sizes->calls, sizes->cursors, sizes->texts, sizes->heap};
    memset(opened, 0, sizeof opened);
    rez_status status = (rez_status)ft_open(&plain, sizes->tables, 14, opened, sizes->sessions);
    if (status != REZ_DONE) {
        for (uint32_t n = 0; n < sizes->sessions; n++) ft_close(opened[n].held, opened[n].open);
        return status;
    }
    for (uint32_t n = 0; n < sizes->sessions; n++) {
        memset(&sessions[n], 0, sizeof sessions[n]);
        sessions[n].handle = opened[n];
    }
    return REZ_DONE;
}

/* Closes what a handle has, and leaves it as it was before it was opened. */
static inline rez_status rez_close_handle(rez_handle *handle, uint32_t *busy) {
    if (!rez_take(busy)) return REZ_BUSY;
    rez_status status = (rez_status)ft_close(handle->held, handle->open);
    memset(handle, 0, sizeof *handle);
    rez_give(busy);
    return status;
}

/* rez_close - gives a session back, online or not; its open sections end, and the engine is freed with its last session.
 * Errors: REZ_NO_HANDLE where it is null, was never opened, or was closed before; REZ_BUSY. It blocks nobody. */
static inline rez_status rez_close(rez_session *session) {
    return session == NULL ? REZ_NO_HANDLE : rez_close_handle(&session->handle, &session->busy);
}

/* ---- online and offline */

/* rez_enter - goes online, before the first call and after rez_leave. Errors: REZ_NO_HANDLE, REZ_BUSY. */
static inline rez_status rez_enter(rez_session *session) {
    if (session == NULL) return REZ_NO_HANDLE;
    if (!rez_take(&session->busy)) return REZ_BUSY;
    rez_status status = (rez_status)ft_enter(&session->handle);
    rez_give(&session->busy);
    return status;
}

/* rez_leave - goes offline: before the thread blocks, and after its last call. A request that was answered REZ_AGAIN is
 * given up, and open sections end without a reply. Errors: REZ_NO_HANDLE, REZ_BUSY. */
static inline rez_status rez_leave(rez_session *session) {
    if (session == NULL) return REZ_NO_HANDLE;
    if (!rez_take(&session->busy)) return REZ_BUSY;
    rez_status status = (rez_status)ft_leave(&session->handle);
    rez_give(&session->busy);
    return status;
}

/* rez_left - how many calls the session may still make; 0 where it is null, closed or busy. */
static inline uint32_t rez_left(rez_session *session) {
    if (session == NULL || !rez_take(&session->busy)) return 0;
    uint32_t left = ft_left(&session->handle);
    rez_give(&session->busy);
    return left;
}

/* rez_depth - how many sections the session has open; 0 where it is null, closed or busy. */
static inline uint32_t rez_depth(rez_session *session) {
    if (session == NULL || !rez_take(&session->busy)) return 0;
    uint32_t depth = ft_depth(&session->handle);
    rez_give(&session->busy);
    return depth;
}

/* ---- calls */

/* rez_step - one step of a call, which never waits. After REZ_AGAIN the same request comes next. After REZ_DONE the reply
 * is filled: the call is one entry of the history of all sessions, and no other answer is one.
 * Errors: REZ_AGAIN, REZ_NO_MEMORY, REZ_OFFLINE, REZ_NAMES, REZ_SECTIONS, REZ_CALLS_LEFT, REZ_IN_FLIGHT, REZ_NO_CALL,
 * REZ_NO_HANDLE, REZ_BUSY, REZ_NULL. */
static inline rez_status rez_step(rez_session *session, const rez_request *request, rez_reply *reply) {
    if (session == NULL) return REZ_NO_HANDLE;
    if (request == NULL || reply == NULL) return REZ_NULL;
    if (!rez_take(&session->busy)) return REZ_BUSY;
    rez_status status = (rez_status)ft_step(&session->handle, request, reply);
    rez_give(&session->busy);
    return status;
}

/* rez_call_once - a call until it is done: rez_step with pauses while it answers REZ_AGAIN. It waits for other threads. */
static inline rez_status rez_call_once(rez_session *session, const rez_request *request, rez_reply *reply) {
    rez_status status;
    for (unsigned tries = 0; (status = rez_step(session, request, reply)) == REZ_AGAIN; tries++) rez_pause(tries);
    return status;
}

/* How often at most rez_call makes a call again that found every table of a class taken. */
enum { REZ_RETRIES = 1000 };

/* The pause after that many tries of a call that wants a table: threads that have no processor have to come to a quiescent
 * point, so after some yields it sleeps, a tenth of a millisecond each time. */
static inline void rez_pause_for_tables(unsigned tries) {
    if (tries < 16) {
        rez_pause(tries);
    } else {
        struct timeval a_while = {0, 100};
        select(0, NULL, NULL, NULL, &a_while);
    }
}

/* Whether what a call lacked may be there after a quiescent point, when it was made again that often. */
static inline int rez_may_come(const rez_reply *reply, unsigned tries) {
    if (reply->tag != REZ_R_RAISED) return 0;
    return reply->raised == REZ_MEMORY_CLASS ? tries < REZ_RETRIES : reply->raised == REZ_MEMORY_HEAP && tries == 0;
}

/* rez_call - a call until it is done. Where it raises MemoryError since every table of a class is taken, it makes a
 * REZ_QUIESCE and the same call again, at most REZ_RETRIES times, with pauses, so that other threads can let retired
 * tables go; each of these is a call of the session. Where no place is left for a boxed value it does so once. The answer is
 * that of the last. It waits for other threads. Where no table comes back it takes some 0.15 s before it answers the
 * MemoryError. */
static inline rez_status rez_call(rez_session *session, const rez_request *request, rez_reply *reply) {
    rez_status status = rez_call_once(session, request, reply);
    for (unsigned tries = 0; status == REZ_DONE && rez_may_come(reply, tries) && rez_left(session) >= 2; tries++) {
        rez_request rest = rez_on(REZ_QUIESCE, 0);
        status = rez_call_once(session, &rest, reply);
        if (status != REZ_DONE) break;
        rez_pause_for_tables(tries);
        status = rez_call_once(session, request, reply);
    }
    return status;
}

/* rez_items - copies what the last reply of the session with the tag REZ_R_DICT, REZ_R_LIST or REZ_R_SET has, as much as
 * there is room for: keys of a dict or a set, values of a dict or a list. *count is how many there are.
 * Errors: REZ_NO_HANDLE, REZ_BUSY, REZ_NULL. An array without room may be null. */
static inline rez_status rez_items(rez_session *session, rez_datum *keys, size_t key_room, rez_datum *values,
                                   size_t value_room, uint64_t *count) {
    rez_datum none;
    if (session == NULL || session->handle.open == 0) return REZ_NO_HANDLE;
    if (count == NULL || (keys == NULL && key_room > 0) || (values == NULL && value_room > 0)) return REZ_NULL;
    if (!rez_take(&session->busy)) return REZ_BUSY;
    *count = ft_items(&session->handle, keys ? keys : &none, key_room, values ? values : &none, value_room);
    rez_give(&session->busy);
    return REZ_DONE;
}

/* rez_dict_get, rez_dict_set - d[key] and d[key] = value until they are done, without a reply: REZ_RAISED where they raise.
 * They are faster than rez_call, make no call again for want of a table, and wait for other threads. */
static inline rez_status rez_dict_get(rez_session *session, uint32_t dict, rez_datum key, rez_datum *value) {
    if (session == NULL) return REZ_NO_HANDLE;
    if (value == NULL) return REZ_NULL;
    if (!rez_take(&session->busy)) return REZ_BUSY;
    rez_status status;
    for (unsigned tries = 0; (status = (rez_status)ft_dict_get(&session->handle, dict, key, value)) == REZ_AGAIN; tries++)
        rez_pause(tries);
    rez_give(&session->busy);
    return status;
}
static inline rez_status rez_dict_set(rez_session *session, uint32_t dict, rez_datum key, rez_datum value) {
    if (session == NULL) return REZ_NO_HANDLE;
    if (!rez_take(&session->busy)) return REZ_BUSY;
    rez_status status;
    for (unsigned tries = 0; (status = (rez_status)ft_dict_set(&session->handle, dict, key, value)) == REZ_AGAIN; tries++)
        rez_pause(tries);
    rez_give(&session->busy);
    return status;
}

/* ---- critical sections and quiescent points */

/* rez_begin, rez_begin2 - begin a critical section on one container or on two: until rez_end no other session writes to
 * them, unless one of its own calls waits, which suspends it. At most 16 are open in a session. */
static inline rez_status rez_begin(rez_session *session, uint32_t container) {
    rez_request r = rez_on(REZ_BEGIN, container);
    rez_reply reply;
    return rez_call_once(session, &r, &reply);
}
static inline rez_status rez_begin2(rez_session *session, uint32_t first, uint32_t second) {
    rez_request r = rez_on(REZ_BEGIN2, first);
    rez_reply reply;
    r.other = second;
    return rez_call_once(session, &r, &reply);
}

/* rez_end - ends the innermost section. *waits is how many calls in it had to wait, for which its locks were let go: 0 where
 * it kept them all the while. waits may be null. */
static inline rez_status rez_end(rez_session *session, uint64_t *waits) {
    rez_request r = rez_on(REZ_END, 0);
    rez_reply reply;
    rez_status status = rez_call_once(session, &r, &reply);
    if (status == REZ_DONE && waits != NULL) *waits = reply.tag == REZ_R_KEPT ? 0 : reply.count;
    return status;
}

/* rez_quiesce - a quiescent point: this session has no reading under way. */
static inline rez_status rez_quiesce(rez_session *session) {
    rez_request r = rez_on(REZ_QUIESCE, 0);
    rez_reply reply;
    return rez_call_once(session, &r, &reply);
}

/* ---- texts */

/* rez_texts_open - texts without any. They are independent of engines: one serves all sessions of an engine, or of more.
 * rez_texts_close gives them back. Errors: REZ_NULL, REZ_NO_MEMORY; REZ_NO_HANDLE, REZ_BUSY. */
static inline rez_status rez_texts_open(rez_texts *texts) {
    rez_handle opened;
    if (texts == NULL) return REZ_NULL;
    memset(&opened, 0, sizeof opened);
    rez_status status = (rez_status)ft_texts_open(&opened);
    if (status != REZ_DONE) return status;
    memset(texts, 0, sizeof *texts);
    texts->handle = opened;
    return REZ_DONE;
}
static inline rez_status rez_texts_close(rez_texts *texts) {
    return texts == NULL ? REZ_NO_HANDLE : rez_close_handle(&texts->handle, &texts->busy);
}

/* rez_text - the number of a text of so many bytes of UTF-8, which gets the next one, from 0 on, where it has none yet. The
 * same bytes have the same number, for good. It waits while another thread is in these texts, and for nothing else.
 * Errors: REZ_NO_HANDLE, REZ_NULL, REZ_NOT_UTF8, REZ_FULL, REZ_NO_MEMORY. */
static inline rez_status rez_text(rez_texts *texts, const char *text, size_t length, uint32_t *number) {
    if (texts == NULL) return REZ_NO_HANDLE;
    if (number == NULL || (text == NULL && length > 0)) return REZ_NULL;
    for (unsigned tries = 0; !rez_take(&texts->busy); tries++) rez_pause(tries);
    rez_status status = (rez_status)ft_text_number(&texts->handle, (const uint8_t *)(text ? text : ""), length, number);
    rez_give(&texts->busy);
    return status;
}

/* rez_text_bytes - copies the bytes of the text with that number, as many as there is room for, without a 0 at the end.
 * *length is how many there are. Errors: REZ_NO_HANDLE, REZ_NULL, REZ_NO_TEXT. It waits as rez_text does. */
static inline rez_status rez_text_bytes(rez_texts *texts, uint32_t number, char *bytes, size_t room, uint64_t *length) {
    uint8_t none;
    if (texts == NULL) return REZ_NO_HANDLE;
    if (length == NULL || (bytes == NULL && room > 0)) return REZ_NULL;
    for (unsigned tries = 0; !rez_take(&texts->busy); tries++) rez_pause(tries);
    rez_status status =
        (rez_status)ft_text_bytes(&texts->handle, number, bytes ? (uint8_t *)bytes : &none, room, length);
    rez_give(&texts->busy);
    return status;
}

#ifdef __cplusplus
}
#endif
#endif
