/* The containers of one engine as Python types Dict, List and Set, for the package rezunkai.
 *
 * Integers of 64 bits and None go as they are. A string goes by a number: as a key by one of 65,536, as a value by one of
 * 2^32. With open(objects=True) so does any other object: a key by equality, a value by identity. What has a number keeps it,
 * and is kept, for good.
 *
 * Every call of the engine is made with the interpreter's lock held, which is let go only between two tries of a call that
 * has to wait for another thread. */
#define PY_SSIZE_T_CLEAN
#include <Python.h>
#include <pthread.h>
#include "rezunkai.h"

enum { SESSIONS = 64, CURSORS = 256, CONTAINERS = 256, TEXTS = 65536 };
enum { DICT, LIST, SET };

/* ---- the engine: its sessions, and the numbers of containers and cursors that are free. The lock is for thread ends. */

static rez_session sessions[SESSIONS];
static uint32_t session_count, entered;
static int free_sessions[SESSIONS], free_session_count, taken_sessions[SESSIONS];
static int cursor_free[SESSIONS][CURSORS], cursor_count[SESSIONS];
static int pool[3][CONTAINERS], pool_count[3];
static pthread_mutex_t lock = PTHREAD_MUTEX_INITIALIZER;
static pthread_key_t key_of_thread;
static __thread int mine = -1;
static int is_open, keeps_objects;
static PyObject *key_numbers, *key_objects, *value_numbers, *value_objects, *records;

/* At the end of a thread its session may be another one's. */
static void give_session(void *at) {
    pthread_mutex_lock(&lock);
    free_sessions[free_session_count++] = (int)(intptr_t)at - 1;
    pthread_mutex_unlock(&lock);
}

static int refused(rez_status status) {
    switch (status) {
    case REZ_NO_MEMORY: PyErr_NoMemory(); break;
    case REZ_SECTIONS: PyErr_SetString(PyExc_RuntimeError, "a thread has at most 16 open sections, and ends those it began"); break;
    case REZ_CALLS_LEFT: PyErr_SetString(PyExc_RuntimeError, "this thread's session has made all 4,294,967,295 calls"); break;
    case REZ_SIZES: PyErr_SetString(PyExc_ValueError, "the sizes don't keep the limits"); break;
    default: PyErr_Format(PyExc_SystemError, "the library answered %s", rez_status_name(status));
    }
    return -1;
}

static int open_engine(rez_sizes *sizes) {
    rez_status status;
    session_count = sizes->sessions;
    if ((status = rez_open(sizes, sessions)) != REZ_DONE) return refused(status);
    uint32_t counts[3] = {sizes->dicts, sizes->lists, sizes->sets}, at = 0;
    for (int kind = 0; kind < 3; kind++) {
        for (uint32_t n = counts[kind]; n > 0; n--) pool[kind][pool_count[kind]++] = (int)(at + n - 1);
        at += counts[kind];
    }
    for (uint32_t s = 0; s < session_count; s++) {
        free_sessions[free_session_count++] = (int)(session_count - 1 - s);
        for (uint32_t n = sizes->cursors; n > 0; n--) cursor_free[s][cursor_count[s]++] = (int)n - 1;
    }
    is_open = 1;
    return 0;
}

static rez_sizes usual_sizes(void) {
    static const uint32_t tables[14] = {1024, 1024, 512, 256, 128, 64, 32, 16, 8, 8, 4, 2, 1, 1};
    rez_sizes sizes = rez_sizes_of(112, 72, 72, SESSIONS);
    sizes.cursors = CURSORS, sizes.texts = TEXTS;
    memcpy(sizes.tables, tables, sizeof tables);
    return sizes;
}

/* The thread's session, online, or -1 with an exception. */
static int session(void) {
    if (mine >= 0) return mine;
    rez_sizes sizes = usual_sizes();
    if (!is_open && open_engine(&sizes)) return -1;
    pthread_mutex_lock(&lock);
    int taken = free_session_count ? free_sessions[--free_session_count] : -1;
    pthread_mutex_unlock(&lock);
    if (taken < 0) {
        PyErr_Format(PyExc_RuntimeError, "more than %u threads", session_count);
        return -1;
    }
    if (!taken_sessions[taken]) {
        rez_status status = rez_enter(&sessions[taken]);
        if (status != REZ_DONE) return refused(status);
        taken_sessions[taken] = 1, entered++;
    }
    pthread_setspecific(key_of_thread, (void *)(intptr_t)(taken + 1));
    return mine = taken;
}

/* ---- calls */

static PyObject *datum_object(rez_datum d, int is_key);
static PyObject *items_of(int s, const rez_reply *r);

/* A row of a recording: the session, what was asked, what was answered. */
static int keep_row(int s, const rez_request *q, const rez_reply *r) {
    int is_element = q->op >= REZ_S_ADD && q->op <= REZ_S_ITER;
    PyObject *items = r->tag >= REZ_R_DICT && r->tag <= REZ_R_SET ? items_of(s, r) : Py_NewRef(Py_None);
    PyObject *row = items ? Py_BuildValue("iIIINNLLIINNKKIIN", s, q->op, q->container, q->other, datum_object(q->key, 1),
        datum_object(q->value, 0), (long long)q->index, (long long)q->end, r->tag, r->raised, datum_object(r->key, 1),
        datum_object(r->value, is_element || (q->op == REZ_NEXT && q->index == SET)), (unsigned long long)r->count,
        (unsigned long long)r->stamp, r->wrote, r->waited, items) : NULL;
    int status = row ? PyList_Append(records, row) : -1;
    Py_XDECREF(row);
    return status;
}

/* A call until it is done. The interpreter's lock is let go between two tries. A thread that waits long, outside sections,
 * goes offline for a moment and begins the call anew, so that it keeps no table from being free. */
static int make_once(int s, const rez_request *q, rez_reply *r) {
    rez_status status = rez_step(&sessions[s], q, r);
    for (unsigned tries = 0; status == REZ_AGAIN || status == REZ_BUSY; tries++) {
        Py_BEGIN_ALLOW_THREADS
        rez_pause(tries);
        Py_END_ALLOW_THREADS
        if (status == REZ_AGAIN && tries % 8 == 7 && rez_depth(&sessions[s]) == 0) rez_leave(&sessions[s]), rez_enter(&sessions[s]);
        status = rez_step(&sessions[s], q, r);
    }
    if (status != REZ_DONE) return refused(status);
    return records ? keep_row(s, q, r) : 0;
}

/* A quiescent point of each session that isn't in a call: a thread that blocks keeps no table from being free so. */
static int quiesce_all(void) {
    for (uint32_t s = 0; s < session_count; s++) {
        rez_request q = rez_on(REZ_QUIESCE, 0);
        rez_reply r;
        if (taken_sessions[s] && rez_step(&sessions[s], &q, &r) == REZ_DONE && records && keep_row((int)s, &q, &r)) return -1;
    }
    return 0;
}

static int make_in(int s, const rez_request *q, rez_reply *r) {
    if (make_once(s, q, r)) return -1;
    for (int tries = 0; rez_may_come(r, tries); tries++) {
        if (tries > 1 && entered > 1) {     /* the others may be in a call */
            Py_BEGIN_ALLOW_THREADS
            rez_pause(8);
            Py_END_ALLOW_THREADS
        } else if (tries > 1) {
            break;
        }
        if (quiesce_all() || make_once(s, q, r)) return -1;
    }
    return 0;
}

static int make(const rez_request *q, rez_reply *r) {
    int s = session();
    return s < 0 ? -1 : make_in(s, q, r);
}

/* ---- objects as numbers */

/* The number of a key of a table, which is the next one where it has none yet. */
static int number_in(PyObject *numbers, PyObject *objects, PyObject *key, PyObject *object, Py_ssize_t most, int64_t *number) {
    Py_ssize_t next = PyList_GET_SIZE(objects);
    PyObject *new = PyLong_FromSsize_t(next), *found = new ? PyDict_SetDefault(numbers, key, new) : NULL;
    Py_XDECREF(new);
    if (!found) return -1;
    *number = PyLong_AsLongLong(found);
    if (found != new || *number < PyList_GET_SIZE(objects)) return 0;
    if (next >= most) {
        PyDict_DelItem(numbers, key);
        PyErr_SetString(PyExc_MemoryError, "no number is left for a string");
        return -1;
    }
    return PyList_Append(objects, object);
}

static int other_type(PyObject *object, const char *what) {
    if (PyLong_CheckExact(object)) return PyErr_Format(PyExc_TypeError, "%s is an int of more than 64 bits", what), -1;
    PyErr_Format(PyExc_TypeError, "%s is an int of 64 bits%s, not %.100s", what,
                 what[0] == 'k' ? " or a str" : ", a str or None", Py_TYPE(object)->tp_name);
    return -1;
}

static int as_int(PyObject *object, int64_t *value) {
    int over = 0;
    *value = PyLong_AsLongLongAndOverflow(object, &over);
    return !over;
}

static int key_datum(PyObject *object, rez_datum *d) {
    d->pad = 0, d->kind = REZ_INT;
    if (PyLong_CheckExact(object) && as_int(object, &d->value)) return 0;
    if (!PyUnicode_CheckExact(object)) {
        if (!keeps_objects) return PyObject_Hash(object) == -1 && PyErr_Occurred() ? -1 : other_type(object, "key");
        if (PyBool_Check(object) && as_int(object, &d->value)) return 0;
        if (PyFloat_CheckExact(object)) {
            double x = PyFloat_AS_DOUBLE(object);
            if (x >= -9e18 && x <= 9e18 && x == (double)(int64_t)x) return d->value = (int64_t)x, 0;
        }
    }
    d->kind = REZ_TEXT;
    return number_in(key_numbers, key_objects, object, object, TEXTS, &d->value);
}

static int value_datum(PyObject *object, rez_datum *d) {
    d->pad = 0, d->value = 0, d->kind = REZ_NONE;
    if (object == Py_None) return 0;
    d->kind = REZ_INT;
    if (PyLong_CheckExact(object) && as_int(object, &d->value)) return 0;
    d->kind = REZ_TEXT;
    if (PyUnicode_CheckExact(object)) return number_in(value_numbers, value_objects, object, object, UINT32_MAX, &d->value);
    if (!keeps_objects) return other_type(object, "value");
    PyObject *at = PyLong_FromVoidPtr(object);
    int status = at ? number_in(value_numbers, value_objects, at, object, UINT32_MAX, &d->value) : -1;
    Py_XDECREF(at);
    return status;
}

static PyObject *datum_object(rez_datum d, int is_key) {
    if (d.kind == REZ_NONE) Py_RETURN_NONE;
    if (d.kind == REZ_INT) return PyLong_FromLongLong(d.value);
    return Py_NewRef(PyList_GET_ITEM(is_key ? key_objects : value_objects, d.value));
}

/* ---- replies */

static PyObject *raised(const rez_reply *r, PyObject *key, const char *said) {
    switch (r->raised) {
    case REZ_NO_KEY:
        if (key) {
            PyObject *args = PyTuple_Pack(1, key);
            if (args) PyErr_SetObject(PyExc_KeyError, args);
            Py_XDECREF(args);
        } else {
            PyErr_SetString(PyExc_KeyError, said ? said : "");
        }
        break;
    case REZ_NO_INDEX: PyErr_SetString(PyExc_IndexError, said ? said : "list index out of range"); break;
    case REZ_NO_VALUE: PyErr_SetString(PyExc_ValueError, said ? said : "value is not in list"); break;
    case REZ_SIZE_CHANGED: PyErr_Format(PyExc_RuntimeError, "%s changed size during iteration", said ? said : "dictionary"); break;
    case REZ_KEYS_CHANGED: PyErr_Format(PyExc_RuntimeError, "%s keys changed during iteration", said ? said : "dictionary"); break;
    case REZ_MEMORY_CLASS: PyErr_Format(PyExc_MemoryError, "no table of %d slots is left", 1 << r->count); break;
    case REZ_MEMORY_HEAP: PyErr_SetString(PyExc_MemoryError, "this thread has no place left for an int outside -5..256 or a str as a value"); break;
    default: PyErr_SetString(PyExc_MemoryError, "more than the largest table holds");
    }
    return NULL;
}

static PyObject *pair_of(rez_datum key, rez_datum value) {
    PyObject *k = datum_object(key, 1), *v = datum_object(value, 0), *pair = k && v ? PyTuple_Pack(2, k, v) : NULL;
    Py_XDECREF(k), Py_XDECREF(v);
    return pair;
}

static PyObject *items_of(int s, const rez_reply *r) {
    size_t n = r->count;
    uint64_t count = 0;
    rez_datum *keys = PyMem_Malloc((2 * n + 1) * sizeof *keys), *values = keys + n;
    if (!keys) return PyErr_NoMemory();
    rez_items(&sessions[s], keys, n, values, n, &count);
    PyObject *list = PyList_New((Py_ssize_t)n);
    for (size_t i = 0; list && i < n; i++) {
        PyObject *item = r->tag == REZ_R_DICT ? pair_of(keys[i], values[i])
                       : r->tag == REZ_R_LIST ? datum_object(values[i], 0) : datum_object(keys[i], 1);
        if (!item) Py_CLEAR(list);
        else PyList_SET_ITEM(list, (Py_ssize_t)i, item);
    }
    PyMem_Free(keys);
    return list;
}

/* What a call of a container of that kind returns. */
static PyObject *reply_object(int s, int kind, const rez_reply *r, PyObject *key, const char *said) {
    switch (r->tag) {
    case REZ_R_VALUE: return datum_object(r->value, kind == SET);
    case REZ_R_PAIR: return pair_of(r->key, r->value);
    case REZ_R_TRUTH: return PyBool_FromLong((long)r->count);
    case REZ_R_COUNT: case REZ_R_SUSPENDED: return PyLong_FromUnsignedLongLong(r->count);
    case REZ_R_KEPT: return PyLong_FromLong(0);
    case REZ_R_DICT: case REZ_R_LIST: case REZ_R_SET: return items_of(s, r);
    case REZ_R_STOP: return NULL;
    case REZ_R_RAISED: return raised(r, key, said);
    default: Py_RETURN_NONE;
    }
}

/* ---- containers */

typedef struct { PyObject_HEAD int kind; uint32_t number; } Box;
static PyTypeObject DictType, ListType, SetType;

static Box *as_box(PyObject *object) {
    if (PyObject_TypeCheck(object, &DictType) || PyObject_TypeCheck(object, &ListType) || PyObject_TypeCheck(object, &SetType))
        return (Box *)object;
    PyErr_Format(PyExc_TypeError, "%.100s is no container of rezunkai", Py_TYPE(object)->tp_name);
    return NULL;
}

static PyObject *box_for(PyTypeObject *type, int kind) {
    static const char *const names[3] = {"dict", "list", "set"};
    if (session() < 0) return NULL;
    if (!pool_count[kind]) return PyErr_Format(PyExc_MemoryError, "every %s of the engine is in use", names[kind]);
    Box *box = (Box *)type->tp_alloc(type, 0);
    if (box) box->kind = kind, box->number = (uint32_t)pool[kind][--pool_count[kind]];
    return (PyObject *)box;
}

/* A container that nobody has any more is emptied, and its number is free again. */
static void box_dealloc(Box *box) {
    static const rez_op clears[3] = {REZ_D_CLEAR, REZ_L_CLEAR, REZ_S_CLEAR};
    PyObject *type, *value, *trace;
    PyErr_Fetch(&type, &value, &trace);
    rez_request q = rez_on(clears[box->kind], box->number);
    rez_reply r;
    if (make(&q, &r) == 0 && r.tag == REZ_R_DONE) pool[box->kind][pool_count[box->kind]++] = (int)box->number;
    else PyErr_Clear();
    PyErr_Restore(type, value, trace);
    Py_TYPE(box)->tp_free((PyObject *)box);
}

/* call(op, key, value, other, index, end): any call of the library; Ellipsis stands for what isn't given. */
static PyObject *box_call(Box *box, PyObject *const *args, Py_ssize_t n) {
    static const char *const said[128] = {
        [REZ_D_POPITEM] = "popitem(): dictionary is empty", [REZ_L_SET] = "list assignment index out of range",
        [REZ_L_DEL] = "list assignment index out of range", [REZ_L_REMOVE] = "list.remove(x): x not in list",
        [REZ_S_POP] = "pop from an empty set"};
    long op = n > 0 ? PyLong_AsLong(args[0]) : -1;
    if (op < 0 || op >= 128) return PyErr_Occurred() ? NULL : PyErr_Format(PyExc_TypeError, "no such operation");
    rez_request q = rez_on((rez_op)op, box->number);
    PyObject *key = n > 1 && args[1] != Py_Ellipsis ? args[1] : NULL;
    if (key && key_datum(key, &q.key)) return NULL;
    if (n > 2 && args[2] != Py_Ellipsis && value_datum(args[2], &q.value)) return NULL;
    if (n > 3 && args[3] != Py_Ellipsis) {
        Box *other = as_box(args[3]);
        if (!other) return NULL;
        q.other = other->number;
    }
    if (n > 4 && args[4] != Py_Ellipsis) q.index = PyLong_AsLongLong(args[4]);
    if (n > 5 && args[5] != Py_Ellipsis) q.end = PyLong_AsLongLong(args[5]);
    rez_reply r;
    if (PyErr_Occurred() || make(&q, &r)) return NULL;
    return reply_object(mine, box->kind, &r, key, said[op]);
}

/* ---- walks: a cursor of the session of the thread that made it, which another thread may use */

typedef struct { PyObject_HEAD Box *box; int session, cursor, is_over; } Walk;

static void walk_end(Walk *walk) {
    if (!walk->is_over) cursor_free[walk->session][cursor_count[walk->session]++] = walk->cursor;
    walk->is_over = 1;
}
static void walk_dealloc(Walk *walk) {
    walk_end(walk);
    Py_XDECREF(walk->box);
    Py_TYPE(walk)->tp_free((PyObject *)walk);
}
static PyObject *walk_new(PyTypeObject *type, PyObject *args, PyObject *words) {
    static const rez_op iters[3] = {REZ_D_ITER, REZ_L_ITER, REZ_S_ITER};
    PyObject *object;
    Box *box;
    if (!PyArg_ParseTuple(args, "O", &object) || !(box = as_box(object))) return NULL;
    int s = session();
    if (s < 0) return NULL;
    if (!cursor_count[s]) return PyErr_Format(PyExc_MemoryError, "every cursor of this thread is in use");
    Walk *walk = (Walk *)type->tp_alloc(type, 0);
    if (!walk) return NULL;
    walk->box = (Box *)Py_NewRef(object), walk->session = s, walk->cursor = cursor_free[s][--cursor_count[s]];
    rez_request q = rez_on(iters[box->kind], box->number);
    rez_reply r;
    q.other = (uint32_t)walk->cursor;
    if (make_in(s, &q, &r)) Py_CLEAR(walk);
    return (PyObject *)walk;
}
static PyObject *walk_next(Walk *walk) {
    static const char *const names[3] = {"dictionary", "list", "Set"};
    if (walk->is_over) return NULL;
    rez_request q = rez_on(REZ_NEXT, 0);
    rez_reply r;
    q.other = (uint32_t)walk->cursor, q.index = walk->box->kind;
    if (make_in(walk->session, &q, &r)) return NULL;
    if (r.tag == REZ_R_STOP) walk_end(walk);
    return reply_object(walk->session, walk->box->kind, &r, NULL, names[walk->box->kind]);
}

/* ---- what is fast in C: subscripts, lengths, membership, append and add */

static PyObject *dict_subscript(Box *box, PyObject *key) {
    rez_request q = rez_on(REZ_D_GET, box->number);
    rez_reply r;
    if (key_datum(key, &q.key) || make(&q, &r)) return NULL;
    if (r.tag == REZ_R_VALUE) return datum_object(r.value, 0);
    if (r.raised == REZ_NO_KEY && PyObject_HasAttrString((PyObject *)Py_TYPE(box), "__missing__"))
        return PyObject_CallMethod((PyObject *)box, "__missing__", "(O)", key);
    return raised(&r, key, NULL);
}
static int dict_assign(Box *box, PyObject *key, PyObject *value) {
    rez_request q = rez_on(value ? REZ_D_SET : REZ_D_DEL, box->number);
    rez_reply r;
    if (key_datum(key, &q.key) || (value && value_datum(value, &q.value)) || make(&q, &r)) return -1;
    return r.tag == REZ_R_RAISED ? (raised(&r, key, NULL), -1) : 0;
}
static Py_ssize_t box_length(Box *box) {
    static const rez_op lengths[3] = {REZ_D_LEN, REZ_L_LEN, REZ_S_LEN};
    rez_request q = rez_on(lengths[box->kind], box->number);
    rez_reply r;
    return make(&q, &r) ? -1 : (Py_ssize_t)r.count;
}
static int box_contains(Box *box, PyObject *key) {
    static const rez_op has[3] = {REZ_D_HAS, REZ_L_HAS, REZ_S_HAS};
    rez_request q = rez_on(has[box->kind], box->number);
    rez_reply r;
    if (box->kind == LIST ? value_datum(key, &q.value) : key_datum(key, &q.key)) {
        if (box->kind != SET || !PyErr_ExceptionMatches(PyExc_TypeError) || !(PySet_Check(key) || PyObject_TypeCheck(key, &SetType)))
            return -1;
        PyErr_Clear();      /* a set that can't be hashed is looked for as a frozenset */
        PyObject *frozen = PyFrozenSet_New(key);
        int status = frozen ? key_datum(frozen, &q.key) : -1;
        Py_XDECREF(frozen);
        if (status) return -1;
    }
    return make(&q, &r) ? -1 : (int)r.count;
}
static int index_of(PyObject *index, int64_t *at) {
    *at = PyNumber_AsSsize_t(index, PyExc_IndexError);
    return *at == -1 && PyErr_Occurred() ? -1 : 0;
}
static PyObject *list_subscript(Box *box, PyObject *index) {
    rez_request q = rez_on(REZ_L_GET, box->number);
    rez_reply r;
    if (PySlice_Check(index)) return PyObject_CallMethod((PyObject *)box, "_slice", "(O)", index);
    if (!PyIndex_Check(index))
        return PyErr_Format(PyExc_TypeError, "list indices must be integers or slices, not %.200s", Py_TYPE(index)->tp_name);
    if (index_of(index, &q.index) || make(&q, &r)) return NULL;
    return r.tag == REZ_R_VALUE ? datum_object(r.value, 0) : raised(&r, NULL, NULL);
}
static int list_assign(Box *box, PyObject *index, PyObject *value) {
    rez_request q = rez_on(value ? REZ_L_SET : REZ_L_DEL, box->number);
    rez_reply r;
    if (PySlice_Check(index)) {
        PyObject *done = value ? PyObject_CallMethod((PyObject *)box, "_set_slice", "(OO)", index, value)
                               : PyObject_CallMethod((PyObject *)box, "_del_slice", "(O)", index);
        Py_XDECREF(done);
        return done ? 0 : -1;
    }
    if (!PyIndex_Check(index)) {
        PyErr_Format(PyExc_TypeError, "list indices must be integers or slices, not %.200s", Py_TYPE(index)->tp_name);
        return -1;
    }
    if (index_of(index, &q.index) || (value && value_datum(value, &q.value)) || make(&q, &r)) return -1;
    return r.tag == REZ_R_RAISED ? (raised(&r, NULL, "list assignment index out of range"), -1) : 0;
}
static PyObject *list_pop(Box *box, PyObject *const *args, Py_ssize_t n) {
    rez_request q = rez_on(n ? REZ_L_POP_AT : REZ_L_POP, box->number);
    rez_reply r;
    if (n > 1) return PyErr_Format(PyExc_TypeError, "pop expected at most 1 argument, got %zd", n);
    if ((n && index_of(args[0], &q.index)) || make(&q, &r)) return NULL;
    if (r.tag == REZ_R_VALUE) return datum_object(r.value, 0);
    return raised(&r, NULL, n && box_length(box) ? "pop index out of range" : "pop from empty list");
}
static PyObject *list_append(Box *box, PyObject *value) {
    rez_request q = rez_on(REZ_L_APPEND, box->number);
    rez_reply r;
    if (value_datum(value, &q.value) || make(&q, &r)) return NULL;
    return reply_object(mine, LIST, &r, NULL, NULL);
}
static PyObject *set_add(Box *box, PyObject *key) {
    rez_request q = rez_on(REZ_S_ADD, box->number);
    rez_reply r;
    if (key_datum(key, &q.key) || make(&q, &r)) return NULL;
    return reply_object(mine, SET, &r, key, NULL);
}

/* ---- types */

#define FAST(F) ((PyCFunction)(void (*)(void))(F))
static PyMethodDef dict_methods[] = {{"call", FAST(box_call), METH_FASTCALL, NULL}, {0}};
static PyMethodDef list_methods[] = {{"call", FAST(box_call), METH_FASTCALL, NULL}, {"append", FAST(list_append), METH_O, NULL},
                                     {"pop", FAST(list_pop), METH_FASTCALL, NULL}, {0}};
static PyMethodDef set_methods[] = {{"call", FAST(box_call), METH_FASTCALL, NULL}, {"add", FAST(set_add), METH_O, NULL}, {0}};
static PyObject *dict_new(PyTypeObject *t, PyObject *a, PyObject *k) { return box_for(t, DICT); }
static PyObject *list_new(PyTypeObject *t, PyObject *a, PyObject *k) { return box_for(t, LIST); }
static PyObject *set_new(PyTypeObject *t, PyObject *a, PyObject *k) { return box_for(t, SET); }
static int box_init(PyObject *s, PyObject *a, PyObject *k) { return 0; }
static PyMappingMethods dict_mapping = {(lenfunc)box_length, (binaryfunc)dict_subscript, (objobjargproc)dict_assign};
static PyMappingMethods list_mapping = {(lenfunc)box_length, (binaryfunc)list_subscript, (objobjargproc)list_assign};
static PySequenceMethods dict_sequence = {.sq_contains = (objobjproc)box_contains};
static PySequenceMethods other_sequence = {.sq_length = (lenfunc)box_length, .sq_contains = (objobjproc)box_contains};
#define TYPE(NAME, TEXT, NEW, METHODS, MAPPING, SEQUENCE) \
    static PyTypeObject NAME = {PyVarObject_HEAD_INIT(NULL, 0).tp_name = TEXT, .tp_basicsize = sizeof(Box), \
        .tp_flags = Py_TPFLAGS_DEFAULT | Py_TPFLAGS_BASETYPE, .tp_new = NEW, .tp_init = box_init, \
        .tp_dealloc = (destructor)box_dealloc, .tp_methods = METHODS, .tp_as_mapping = MAPPING, .tp_as_sequence = SEQUENCE}
TYPE(DictType, "rezunkai._rezunkai.Dict", dict_new, dict_methods, &dict_mapping, &dict_sequence);
TYPE(ListType, "rezunkai._rezunkai.List", list_new, list_methods, &list_mapping, &other_sequence);
TYPE(SetType, "rezunkai._rezunkai.Set", set_new, set_methods, NULL, &other_sequence);
static PyTypeObject WalkType = {PyVarObject_HEAD_INIT(NULL, 0).tp_name = "rezunkai._rezunkai.Walk",
    .tp_basicsize = sizeof(Walk), .tp_flags = Py_TPFLAGS_DEFAULT, .tp_new = walk_new, .tp_dealloc = (destructor)walk_dealloc,
    .tp_iter = PyObject_SelfIter, .tp_iternext = (iternextfunc)walk_next};

/* ---- functions */

/* open(dicts, lists, sets, threads, tables, heap, objects) */
static PyObject *open_sizes(PyObject *self, PyObject *args) {
    rez_sizes sizes = usual_sizes();
    PyObject *tables;
    int objects;
    if (!PyArg_ParseTuple(args, "IIIIOIp", &sizes.dicts, &sizes.lists, &sizes.sets, &sizes.sessions, &tables, &sizes.heap, &objects)) return NULL;
    if (is_open) return PyErr_Format(PyExc_RuntimeError, "the engine is open: open() comes before the first container");
    if (tables != Py_None) {
        PyObject *all = PySequence_Fast(tables, "tables are 14 counts");
        if (!all) return NULL;
        Py_ssize_t n = PySequence_Fast_GET_SIZE(all);
        for (Py_ssize_t i = 0; i < n && i < 14; i++) sizes.tables[i] = (uint32_t)PyLong_AsLong(PySequence_Fast_GET_ITEM(all, i));
        Py_DECREF(all);
        if (PyErr_Occurred()) return NULL;
        if (n != 14) return PyErr_Format(PyExc_ValueError, "tables are 14 counts, of 8, 16, .. 65,536 slots");
    }
    if (open_engine(&sizes)) return NULL;
    keeps_objects = objects;
    Py_RETURN_NONE;
}
/* record(): the list of rows that every call from now on is kept in, and the counts of tables. */
static PyObject *record_rows(PyObject *self, PyObject *none) {
    if (is_open) return PyErr_Format(PyExc_RuntimeError, "record() comes before open() and before the first container");
    if (records) return PyErr_Format(PyExc_RuntimeError, "a record is kept already");
    return (records = PyList_New(0)) ? Py_NewRef(records) : NULL;
}
static PyObject *record_stop(PyObject *self, PyObject *none) {
    Py_CLEAR(records);
    Py_RETURN_NONE;
}
static PyObject *section_begin(PyObject *self, PyObject *const *args, Py_ssize_t n) {
    if (n < 1 || n > 2) return PyErr_Format(PyExc_TypeError, "a section is on one container or two");
    Box *first = as_box(args[0]), *second = first && n > 1 ? as_box(args[1]) : NULL;
    if (!first || (n > 1 && !second)) return NULL;
    rez_request q = rez_on(second ? REZ_BEGIN2 : REZ_BEGIN, first->number);
    rez_reply r;
    if (second) q.other = second->number;
    return make(&q, &r) ? NULL : reply_object(mine, first->kind, &r, NULL, NULL);
}
static PyObject *section_end(PyObject *self, PyObject *none) {
    rez_request q = rez_on(REZ_END, 0);
    rez_reply r;
    return make(&q, &r) ? NULL : reply_object(mine, DICT, &r, NULL, NULL);
}
static PyObject *keeps(PyObject *self, PyObject *none) { return PyBool_FromLong(keeps_objects); }
static PyObject *number_of(PyObject *self, PyObject *object) {
    Box *box = as_box(object);
    return box ? PyLong_FromUnsignedLong(box->number) : NULL;
}
/* state(kind, number): what a container of the engine has, by a call that isn't kept. */
static PyObject *state_of(PyObject *self, PyObject *args) {
    static const rez_op items[3] = {REZ_D_ITEMS, REZ_L_ITEMS, REZ_S_ITEMS};
    unsigned kind, number;
    int s = session();
    if (s < 0 || !PyArg_ParseTuple(args, "II", &kind, &number)) return NULL;
    rez_request q = rez_on(items[kind % 3], number);
    rez_reply r;
    return make_in(s, &q, &r) ? NULL : reply_object(s, (int)kind, &r, NULL, NULL);
}

static PyMethodDef functions[] = {
    {"open", open_sizes, METH_VARARGS, NULL}, {"record", record_rows, METH_NOARGS, NULL},
    {"record_stop", record_stop, METH_NOARGS, NULL}, {"begin", FAST(section_begin), METH_FASTCALL, NULL},
    {"end", section_end, METH_NOARGS, NULL}, {"keeps_objects", keeps, METH_NOARGS, NULL},
    {"number", number_of, METH_O, NULL}, {"state", state_of, METH_VARARGS, NULL}, {0}};
static struct PyModuleDef module = {PyModuleDef_HEAD_INIT, "_rezunkai", NULL, -1, functions, NULL, NULL, NULL, NULL};

PyMODINIT_FUNC PyInit__rezunkai(void) {
    PyObject *m = PyModule_Create(&module);
    if (!m || pthread_key_create(&key_of_thread, give_session)) return NULL;
    key_numbers = PyDict_New(), key_objects = PyList_New(0), value_numbers = PyDict_New(), value_objects = PyList_New(0);
    if (!key_numbers || !key_objects || !value_numbers || !value_objects) return NULL;
    PyTypeObject *types[4] = {&DictType, &ListType, &SetType, &WalkType};
    static const char *const names[4] = {"Dict", "List", "Set", "Walk"};
    for (int n = 0; n < 4; n++)
        if (PyType_Ready(types[n]) || PyModule_AddObjectRef(m, names[n], (PyObject *)types[n])) return NULL;
    return m;
}
