/* What crosses between Python and the arena: pairs of objects as values, numbers of keys, and tokens. Part of _arena.c. */
#define PY_SSIZE_T_CLEAN
#include <Python.h>
#include <math.h>
#include <stdint.h>
#include <stdlib.h>
#include <string.h>

#include "topscedar.h"

#ifdef Py_LIMITED_API
#define TUPLE_SET(tuple, i, item) PyTuple_SetItem(tuple, i, item)
#define TUPLE_GET(tuple, i) PyTuple_GetItem(tuple, i)
#define LIST_SET(list, i, item) PyList_SetItem(list, i, item)
#define FLOAT_VALUE(object) PyFloat_AsDouble(object)
#define FAST_COUNT(fast) PySequence_Size(fast)
#define FAST_ITEM(fast, i) (PyList_Check(fast) ? PyList_GetItem(fast, i) : PyTuple_GetItem(fast, i))
#else
#define TUPLE_SET(tuple, i, item) PyTuple_SET_ITEM(tuple, i, item)
#define TUPLE_GET(tuple, i) PyTuple_GET_ITEM(tuple, i)
#define LIST_SET(list, i, item) PyList_SET_ITEM(list, i, item)
#define FLOAT_VALUE(object) PyFloat_AS_DOUBLE(object)
#define FAST_COUNT(fast) PySequence_Fast_GET_SIZE(fast)
#define FAST_ITEM(fast, i) PySequence_Fast_GET_ITEM(fast, i)
#endif

#define KEY_OF(pair) TUPLE_GET(pair, 0)
#define VALUE_OF(pair) TUPLE_GET(pair, 1)

#define BATCH 64

/* How many entries ahead of its turn a key is fetched. */
#define AHEAD 8

#if defined(__GNUC__)
#define FETCH(address) __builtin_prefetch(address)
#else
#define FETCH(address) ((void)(address))
#endif

enum { INT_KEYS, FLOAT_KEYS, OTHER_KEYS };
enum { KEYS, VALUES, ITEMS, ENTRIES };

typedef struct {
    PyObject_HEAD
    struct topscedar_arena handle;
    int kind;
    PyObject *encode; /* int, float, or what gives the number of a key */
    uint64_t shape;     /* counts what adds, removes or moves entries */
    uint64_t writes;    /* counts what replaces pairs */
    bool may_be_cyclic; /* a key or value is of a type that the collector follows */
} Arena;

static PyObject *arena_type, *iterator_type;

static PyObject *pair_of(const struct topscedar_entry *entry) { return (PyObject *)(uintptr_t)entry->value; }
static uint64_t word_of(PyObject *pair) { return (uint64_t)(uintptr_t)pair; }

static PyObject *held(PyObject *object) {
    Py_INCREF(object);
    return object;
}

/* Whether an object can be part of a cycle. A tuple that the collector doesn't follow any more holds nothing that can. */
static bool may_lead_back(PyObject *object) {
    return PyType_HasFeature(Py_TYPE(object), Py_TPFLAGS_HAVE_GC) && !(PyTuple_CheckExact(object) && !PyObject_GC_IsTracked(object));
}

/* The pair for an entry. The collector need not follow one that can't be part of a cycle, nor an arena that has no others. Making a
 * tuple can run any code, by a collection. */
static PyObject *pair_new(Arena *self, PyObject *key, PyObject *value) {
    Py_INCREF(key);
    Py_INCREF(value);
    PyObject *pair = PyTuple_New(2);
    if (!pair) {
        Py_DECREF(key);
        Py_DECREF(value);
        return NULL;
    }
    TUPLE_SET(pair, 0, key);
    TUPLE_SET(pair, 1, value);
    if (may_lead_back(key) || may_lead_back(value)) self->may_be_cyclic = true;
    else PyObject_GC_UnTrack(pair);
    return pair;
}

/* Whether nobody but the arena holds a pair, and no hash of it was kept, as versions from 3.14 on do. */
static bool may_write_pairs;

static bool is_own(PyObject *pair) { return may_write_pairs && Py_REFCNT(pair) == 1; }

/* Puts a key (0) or a value (1) into a pair that is the arena's own. What it takes the place of goes last. */
static void put_in(Arena *self, PyObject *pair, Py_ssize_t place, PyObject *object) {
    if (may_lead_back(object)) {
        self->may_be_cyclic = true;
        if (!PyObject_GC_IsTracked(pair)) PyObject_GC_Track(pair);
    }
    PyTuple_SetItem(pair, place, held(object));
}

/* Fetches the pairs of a batch: they lie anywhere in memory, and are all wanted soon. */
static void fetch_pairs(const struct topscedar_entry *batch, size_t filled) {
    for (size_t i = 0; i < filled; i++) FETCH(pair_of(&batch[i]));
}

/* Keys. */

/* Keeps the order: the bits of a double, with those below the sign turned where it is negative. */
static int64_t of_double(double number) {
    int64_t bits;
    if (number == 0) number = 0; /* -0.0 == 0.0 */
    memcpy(&bits, &number, sizeof bits);
    return bits ^ (int64_t)((uint64_t)(bits >> 63) >> 1);
}

static int int_of(PyObject *object, int64_t *key) {
    if (PyLong_Check(object)) {
        long long number = PyLong_AsLongLong(object);
        if (number == -1 && PyErr_Occurred()) return -1;
        *key = number;
        return 0;
    }
    PyObject *index = PyNumber_Index(object);
    if (!index) return -1;
    int status = int_of(index, key);
    Py_DECREF(index);
    return status;
}

static int key_of(Arena *self, PyObject *object, int64_t *key) {
    if (self->kind == INT_KEYS) return int_of(object, key);
    if (self->kind == FLOAT_KEYS) {
        double number = PyFloat_CheckExact(object) ? FLOAT_VALUE(object) : PyFloat_AsDouble(object);
        if (number == -1 && PyErr_Occurred()) return -1;
        if (isnan(number)) {
            PyErr_SetString(PyExc_ValueError, "NaN has no place in an order");
            return -1;
        }
        *key = of_double(number);
        return 0;
    }
    PyObject *encode = self->encode;
    Py_INCREF(encode);
    PyObject *number = PyObject_CallFunctionObjArgs(encode, object, NULL);
    Py_DECREF(encode);
    if (!number) return -1;
    int status = int_of(number, key);
    Py_DECREF(number);
    return status;
}

/* Whether an object can be a key here: 1, or 0 if it is of another type or too large, or -1 with an exception. */
static int could_be_key(Arena *self, PyObject *object, int64_t *key) {
    if (key_of(self, object, key) == 0) return 1;
    if (PyErr_ExceptionMatches(PyExc_TypeError) && self->kind == INT_KEYS && PyFloat_Check(object)) {
        /* 2.0 == 2 */
        double number = PyFloat_AsDouble(object);
        PyErr_Clear();
        if (!(number >= -9223372036854775808.0 && number < 9223372036854775808.0) || number != floor(number)) return 0;
        *key = (int64_t)number;
        return 1;
    }
    if (PyErr_ExceptionMatches(PyExc_TypeError) || PyErr_ExceptionMatches(PyExc_OverflowError) ||
        PyErr_ExceptionMatches(PyExc_ValueError) || PyErr_ExceptionMatches(PyExc_AttributeError)) {
        PyErr_Clear();
        return 0;
    }
    return -1;
}

/* Tokens: generation << 32 | index. */

static PyObject *token_out(struct topscedar_pointer pointer) {
    if (pointer.generation >> 32 == 0) return PyLong_FromUnsignedLongLong(pointer.generation << 32 | pointer.index);
    PyObject *high = PyLong_FromUnsignedLongLong(pointer.generation), *by = PyLong_FromLong(32);
    PyObject *moved = high && by ? PyNumber_Lshift(high, by) : NULL;
    PyObject *low = PyLong_FromUnsignedLong(pointer.index);
    PyObject *token = moved && low ? PyNumber_Or(moved, low) : NULL;
    Py_XDECREF(high);
    Py_XDECREF(by);
    Py_XDECREF(moved);
    Py_XDECREF(low);
    return token;
}

/* 0, or -1 with an exception: TypeError, or KeyError for an int that is no token. */
static int token_of(PyObject *token, struct topscedar_pointer *pointer) {
    if (!PyLong_Check(token)) {
        PyErr_SetString(PyExc_TypeError, "a token is an int that insert gave");
        return -1;
    }
    unsigned long long bits = PyLong_AsUnsignedLongLong(token);
    if (bits != (unsigned long long)-1 || !PyErr_Occurred()) {
        pointer->index = (uint32_t)bits;
        pointer->generation = bits >> 32;
        return 0;
    }
    PyErr_Clear();
    PyObject *by = PyLong_FromLong(32), *high = by ? PyNumber_Rshift(token, by) : NULL;
    Py_XDECREF(by);
    if (!high) return -1;
    pointer->generation = PyLong_AsUnsignedLongLong(high);
    Py_DECREF(high);
    if (PyErr_Occurred()) {
        PyErr_SetObject(PyExc_KeyError, token);
        return -1;
    }
    pointer->index = (uint32_t)PyLong_AsUnsignedLongLongMask(token);
    return 0;
}

/* Raises what a status says of a key or a token. */
static PyObject *failed(uint8_t status, PyObject *what) {
    switch (status) {
    case TOPSCEDAR_NOT_FOUND: PyErr_SetObject(PyExc_KeyError, what); break;
    case TOPSCEDAR_FULL: PyErr_SetString(PyExc_OverflowError, "the arena is full"); break;
    case TOPSCEDAR_NO_MEMORY: PyErr_NoMemory(); break;
    case TOPSCEDAR_EQUAL_KEY: PyErr_Format(PyExc_ValueError, "an entry has the key %R", what); break;
    default: PyErr_SetString(PyExc_ValueError, "the arena was not opened"); break;
    }
    return NULL;
}

/* Pointer, key and value of an entry. */
static PyObject *entry_out(const struct topscedar_entry *entry) {
    PyObject *key = held(KEY_OF(pair_of(entry))), *value = held(VALUE_OF(pair_of(entry)));
    PyObject *token = token_out(entry->pointer), *triple = token ? PyTuple_New(3) : NULL;
    if (!triple) {
        Py_XDECREF(token);
        Py_DECREF(key);
        Py_DECREF(value);
        return NULL;
    }
    TUPLE_SET(triple, 0, token);
    TUPLE_SET(triple, 1, key);
    TUPLE_SET(triple, 2, value);
    return triple;
}

static int takes(Py_ssize_t given, Py_ssize_t least, Py_ssize_t most, const char *name) {
    if (given >= least && given <= most) return 1;
    PyErr_Format(PyExc_TypeError, "%s() takes %zd to %zd arguments, not %zd", name, least, most, given);
    return 0;
}
