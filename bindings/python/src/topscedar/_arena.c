/* The extension type `Arena`: an ordered arena of Python objects over libtopscedar.
 *
 * How objects live: the arena's value is the address of a tuple of key and value, of which it owns one reference; the arena's key is the
 * number of the key. A pair that somebody else may hold never changes: a new value or key is a new pair. So iterators and `pop_until`
 * hand out the pairs themselves.
 * A call takes its references before it hands a pair in. It gives up those of what leaves only once the arena is whole again, since
 * giving up can run any code (`__del__`), also calls of this arena, and so can making an object. Results are built before anything is
 * removed. So where a call raises, the arena is as it was.
 *
 * Threads: each call holds the interpreter's lock from beginning to end, so calls are atomic.
 *
 * Iterators keep a batch of entries, which stay what they are until an entry is added, removed or moved: `shape` counts that, and
 * an iterator raises RuntimeError afterwards. A value may be replaced: `writes` counts that, and an iterator looks at the entry again.
 */
#include "_objects.h"

/* Insertions. */

static PyObject *insert_by(Arena *self, PyObject *const *args, bool is_unique) {
    int64_t key;
    struct topscedar_pointer pointer;
    if (key_of(self, args[0], &key)) return NULL;
    PyObject *pair = pair_new(self, args[0], args[1]);
    if (!pair) return NULL;
    uint8_t status = (is_unique ? topscedar_arena_insert_unique : topscedar_arena_insert)(&self->handle, key, word_of(pair), &pointer);
    PyObject *token = NULL;
    if (status == TOPSCEDAR_OK) {
        self->shape++;
        token = token_out(pointer);
        if (token) return token;
        topscedar_remove(&self->handle, pointer, NULL);
    } else
        failed(status, args[0]);
    Py_DECREF(pair);
    return NULL;
}

static PyObject *arena_insert(Arena *self, PyObject *const *args, Py_ssize_t count) {
    return takes(count, 2, 2, "insert") ? insert_by(self, args, false) : NULL;
}

static PyObject *arena_insert_unique(Arena *self, PyObject *const *args, Py_ssize_t count) {
    return takes(count, 2, 2, "insert_unique") ? insert_by(self, args, true) : NULL;
}

/* Puts the tokens of these pointers into a list of as many places. */
static int fill_tokens(PyObject *tokens, const struct topscedar_pointer *pointers, size_t count) {
    for (size_t i = 0; i < count; i++) {
        PyObject *token = token_out(pointers[i]);
        if (!token || PyList_SetItem(tokens, (Py_ssize_t)i, token)) return -1;
    }
    return 0;
}

/* Inserts pairs behind all entries, and returns their tokens, if they are wanted, else None. */
static PyObject *extended(Arena *self, PyObject *const *args, bool wants_tokens) {
    PyObject *keys = PySequence_Fast(args[0], "keys is no iterable"), *values = NULL, *result = NULL;
    int64_t *numbers = NULL;
    uint64_t *words = NULL;
    struct topscedar_pointer *pointers = NULL;
    if (!keys || !(values = PySequence_Fast(args[1], "values is no iterable"))) goto end;
    Py_ssize_t count = FAST_COUNT(keys), made = 0;
    if (count != FAST_COUNT(values)) {
        PyErr_SetString(PyExc_ValueError, "there are not as many keys as values");
        goto end;
    }
    numbers = PyMem_Malloc((size_t)count * sizeof *numbers + 1);
    words = PyMem_Malloc((size_t)count * sizeof *words + 1);
    if (wants_tokens) pointers = PyMem_Malloc((size_t)count * sizeof *pointers + 1);
    if (!numbers || !words || (wants_tokens && !pointers)) {
        PyErr_NoMemory();
        goto end;
    }
    while (made < count) {
        /* what gives the numbers of keys can run any code, and so change the lists */
        if (FAST_COUNT(keys) != count || FAST_COUNT(values) != count) {
            PyErr_SetString(PyExc_RuntimeError, "the lists were changed");
            goto release;
        }
        PyObject *pair = pair_new(self, FAST_ITEM(keys, made), FAST_ITEM(values, made));
        if (!pair) goto release;
        words[made++] = word_of(pair);
        if (key_of(self, KEY_OF(pair), &numbers[made - 1])) goto release;
    }
    if (wants_tokens) {
        result = PyList_New(count);
        if (!result) goto release;
    } else {
        Py_INCREF(Py_None);
        result = Py_None;
    }
    size_t at = 0;
    uint8_t status = topscedar_extend_sorted(&self->handle, numbers, words, (size_t)count, pointers, &at);
    if (status == TOPSCEDAR_OK) {
        self->shape++;
        if (!wants_tokens || fill_tokens(result, pointers, (size_t)count) == 0)
            made = 0;
        else
            for (Py_ssize_t i = 0; i < count; i++) topscedar_remove(&self->handle, pointers[i], NULL);
    } else if (status == TOPSCEDAR_OUT_OF_ORDER)
        PyErr_Format(PyExc_ValueError, "the key at index %zu is out of order", at);
    else
        failed(status, Py_None);
release:
    if (made || PyErr_Occurred()) Py_CLEAR(result);
    while (made) Py_DECREF((PyObject *)(uintptr_t)words[--made]);
end:
    PyMem_Free(numbers);
    PyMem_Free(words);
    PyMem_Free(pointers);
    Py_XDECREF(keys);
    Py_XDECREF(values);
    return result;
}

static PyObject *arena_extend_sorted(Arena *self, PyObject *const *args, Py_ssize_t given) {
    return takes(given, 2, 2, "extend_sorted") ? extended(self, args, true) : NULL;
}

static PyObject *arena_extend(Arena *self, PyObject *const *args, Py_ssize_t given) {
    return takes(given, 2, 2, "_extend") ? extended(self, args, false) : NULL;
}

static PyObject *arena_reserve(Arena *self, PyObject *more) {
    size_t additional = PyLong_AsSize_t(more);
    if (additional == (size_t)-1 && PyErr_Occurred()) return NULL;
    uint8_t status = topscedar_arena_reserve(&self->handle, additional);
    if (status) return failed(status, more);
    Py_RETURN_NONE;
}

/* By tokens. */

static int entry_at(Arena *self, PyObject *token, struct topscedar_entry *entry) {
    struct topscedar_pointer pointer;
    if (token_of(token, &pointer)) return -1;
    uint8_t status = topscedar_arena_get(&self->handle, pointer, entry);
    if (!status) return 0;
    failed(status, token);
    return -1;
}

static PyObject *arena_value(Arena *self, PyObject *token) {
    struct topscedar_entry entry;
    return entry_at(self, token, &entry) ? NULL : held(VALUE_OF(pair_of(&entry)));
}

static PyObject *arena_key(Arena *self, PyObject *token) {
    struct topscedar_entry entry;
    return entry_at(self, token, &entry) ? NULL : held(KEY_OF(pair_of(&entry)));
}

static PyObject *arena_item(Arena *self, PyObject *token) {
    struct topscedar_entry entry;
    return entry_at(self, token, &entry) ? NULL : held(pair_of(&entry));
}

static PyObject *arena_is_live(Arena *self, PyObject *token) {
    struct topscedar_entry entry;
    if (entry_at(self, token, &entry) == 0) Py_RETURN_TRUE;
    if (!PyErr_ExceptionMatches(PyExc_KeyError)) return NULL;
    PyErr_Clear();
    Py_RETURN_FALSE;
}

/* Another pair for the entry at a pointer, and the entry: with another key or value, or for NULL the one that it has. Making it can run code
 * that changes the entry: then it is made again. KeyError of `what` if the pointer is stale. */
static PyObject *pair_for(Arena *self, struct topscedar_pointer pointer, PyObject *what, PyObject *key, PyObject *value,
                          struct topscedar_entry *entry) {
    for (;;) {
        uint64_t shape = self->shape, writes = self->writes;
        uint8_t status = topscedar_arena_get(&self->handle, pointer, entry);
        if (status) return failed(status, what);
        PyObject *before = pair_of(entry), *pair = pair_new(self, key ? key : KEY_OF(before), value ? value : VALUE_OF(before));
        if (!pair || (shape == self->shape && writes == self->writes)) return pair;
        Py_DECREF(pair);
    }
}

/* Gives an entry its pair. */
static void write_pair(Arena *self, const struct topscedar_entry *entry, PyObject *pair) {
    topscedar_set_value(&self->handle, entry->pointer, word_of(pair), NULL);
    self->writes++;
    Py_DECREF(pair_of(entry));
}

/* Replaces the value of an entry. */
static int write_value(Arena *self, struct topscedar_entry *entry, PyObject *what, PyObject *value) {
    if (is_own(pair_of(entry))) {
        put_in(self, pair_of(entry), 1, value);
        return 0;
    }
    PyObject *pair = pair_for(self, entry->pointer, what, NULL, value, entry);
    if (pair) write_pair(self, entry, pair);
    return pair ? 0 : -1;
}

static PyObject *arena_set_value(Arena *self, PyObject *const *args, Py_ssize_t count) {
    struct topscedar_entry entry;
    if (!takes(count, 2, 2, "set_value") || entry_at(self, args[0], &entry)) return NULL;
    if (write_value(self, &entry, args[0], args[1])) return NULL;
    Py_RETURN_NONE;
}

static PyObject *arena_rekey(Arena *self, PyObject *const *args, Py_ssize_t count) {
    struct topscedar_entry entry;
    int64_t key, before;
    PyObject *pair = NULL;
    if (!takes(count, 2, 2, "rekey") || key_of(self, args[1], &key) || entry_at(self, args[0], &entry)) return NULL;
    if (!is_own(pair_of(&entry)) && !(pair = pair_for(self, entry.pointer, args[0], args[1], NULL, &entry))) return NULL;
    topscedar_arena_rekey(&self->handle, entry.pointer, key, &before);
    self->shape++;
    if (pair) write_pair(self, &entry, pair);
    else put_in(self, pair_of(&entry), 0, args[1]);
    Py_RETURN_NONE;
}

/* The pair of an entry that was removed. */
static PyObject *taken(Arena *self, const struct topscedar_entry *entry) {
    self->shape++;
    return pair_of(entry);
}

static PyObject *arena_remove(Arena *self, PyObject *token) {
    struct topscedar_pointer pointer;
    struct topscedar_entry entry;
    if (token_of(token, &pointer)) return NULL;
    uint8_t status = topscedar_arena_remove(&self->handle, pointer, &entry);
    return status ? failed(status, token) : taken(self, &entry);
}

static PyObject *arena_discard(Arena *self, PyObject *token) {
    PyObject *pair = arena_remove(self, token);
    if (pair) {
        Py_DECREF(pair);
        Py_RETURN_TRUE;
    }
    if (!PyErr_ExceptionMatches(PyExc_KeyError)) return NULL;
    PyErr_Clear();
    Py_RETURN_FALSE;
}

typedef uint8_t neighbour(struct topscedar_arena *, struct topscedar_pointer, struct topscedar_entry *);
typedef uint8_t search(struct topscedar_arena *, int64_t, struct topscedar_entry *);
typedef uint8_t edge(struct topscedar_arena *, struct topscedar_entry *);

static PyObject *beside(Arena *self, PyObject *token, neighbour *call) {
    struct topscedar_entry entry;
    if (entry_at(self, token, &entry)) return NULL;
    if (call(&self->handle, entry.pointer, &entry)) Py_RETURN_NONE;
    return entry_out(&entry);
}

static PyObject *arena_next(Arena *self, PyObject *token) { return beside(self, token, topscedar_arena_next); }
static PyObject *arena_previous(Arena *self, PyObject *token) { return beside(self, token, topscedar_arena_previous); }

/* By keys. */

static PyObject *searched(Arena *self, PyObject *object, search *call) {
    int64_t key;
    struct topscedar_entry entry;
    if (key_of(self, object, &key)) return NULL;
    if (call(&self->handle, key, &entry)) Py_RETURN_NONE;
    return entry_out(&entry);
}

static PyObject *arena_find(Arena *self, PyObject *key) { return searched(self, key, topscedar_arena_find); }
static PyObject *arena_lower_bound(Arena *self, PyObject *key) { return searched(self, key, topscedar_arena_lower_bound); }
static PyObject *arena_upper_bound(Arena *self, PyObject *key) { return searched(self, key, topscedar_arena_upper_bound); }

static PyObject *arena_rank(Arena *self, PyObject *object) {
    int64_t key;
    return key_of(self, object, &key) ? NULL : PyLong_FromSize_t(topscedar_rank(&self->handle, key));
}

static PyObject *arena_nth(Arena *self, PyObject *object) {
    struct topscedar_entry entry;
    size_t index = PyLong_AsSize_t(object);
    if (index == (size_t)-1 && PyErr_Occurred()) return NULL;
    if (topscedar_arena_nth(&self->handle, index, &entry)) Py_RETURN_NONE;
    return entry_out(&entry);
}

static PyObject *at_edge(Arena *self, edge *call) {
    struct topscedar_entry entry;
    if (call(&self->handle, &entry)) Py_RETURN_NONE;
    return entry_out(&entry);
}

static PyObject *arena_first(Arena *self, PyObject *none) { (void)none; return at_edge(self, topscedar_arena_first); }
static PyObject *arena_last(Arena *self, PyObject *none) { (void)none; return at_edge(self, topscedar_arena_last); }

static PyObject *popped(Arena *self, edge *call) {
    struct topscedar_entry entry;
    if (call(&self->handle, &entry)) Py_RETURN_NONE;
    return taken(self, &entry);
}

static PyObject *arena_pop_first(Arena *self, PyObject *none) { (void)none; return popped(self, topscedar_arena_pop_first); }
static PyObject *arena_pop_last(Arena *self, PyObject *none) { (void)none; return popped(self, topscedar_arena_pop_last); }

static PyObject *arena_count(Arena *self, PyObject *object) {
    int64_t key;
    int could = could_be_key(self, object, &key);
    return could < 0 ? NULL : PyLong_FromSize_t(could ? topscedar_count(&self->handle, key) : 0);
}

static int arena_contains(Arena *self, PyObject *object) {
    int64_t key;
    struct topscedar_entry entry;
    int could = could_be_key(self, object, &key);
    return could <= 0 ? could : topscedar_arena_find(&self->handle, key, &entry) == TOPSCEDAR_OK;
}

/* The first entry with a key: 0, or -1 with KeyError or another exception. */
static int entry_with(Arena *self, PyObject *object, struct topscedar_entry *entry) {
    int64_t key;
    int could = could_be_key(self, object, &key);
    if (could > 0 && topscedar_arena_find(&self->handle, key, entry) == TOPSCEDAR_OK) return 0;
    if (could >= 0) PyErr_SetObject(PyExc_KeyError, object);
    return -1;
}

static PyObject *arena_subscript(Arena *self, PyObject *key) {
    struct topscedar_entry entry;
    return entry_with(self, key, &entry) ? NULL : held(VALUE_OF(pair_of(&entry)));
}

static int arena_erase(Arena *self, PyObject *object) {
    struct topscedar_entry entry;
    if (entry_with(self, object, &entry)) return -1;
    topscedar_remove(&self->handle, entry.pointer, NULL);
    Py_DECREF(taken(self, &entry));
    return 0;
}

/* The first entry with the key keeps it, as it was given then. */
static int arena_assign(Arena *self, PyObject *object, PyObject *value) {
    struct topscedar_entry entry;
    struct topscedar_pointer pointer;
    int64_t key;
    if (!value) return arena_erase(self, object);
    if (key_of(self, object, &key)) return -1;
    if (topscedar_arena_find(&self->handle, key, &entry) == TOPSCEDAR_OK) return write_value(self, &entry, object, value);
    PyObject *pair = pair_new(self, object, value);
    if (!pair) return -1;
    uint8_t status = topscedar_arena_insert(&self->handle, key, word_of(pair), &pointer);
    if (status) {
        failed(status, object);
        Py_DECREF(pair);
        return -1;
    }
    self->shape++;
    return 0;
}

/* Many at a time. */

static Py_ssize_t arena_length(Arena *self) {
    size_t length = 0;
    topscedar_arena_length(&self->handle, &length);
    return (Py_ssize_t)length;
}

static int arena_empty(Arena *self) {
    size_t length = (size_t)arena_length(self), count = 0, filled;
    struct topscedar_entry entry, batch[BATCH];
    if (!length) return 0;
    PyObject **pairs = PyMem_Malloc(length * sizeof *pairs);
    self->shape++;
    if (!pairs) {
        while (length-- && topscedar_arena_pop_last(&self->handle, &entry) == TOPSCEDAR_OK) Py_DECREF(pair_of(&entry));
        return 0;
    }
    topscedar_arena_first(&self->handle, &entry);
    for (struct topscedar_pointer rest = entry.pointer; rest.index;) {
        topscedar_arena_entries_from(&self->handle, rest, batch, BATCH, &filled, &rest);
        for (size_t i = 0; i < filled; i++) pairs[count++] = pair_of(&batch[i]);
    }
    topscedar_arena_clear(&self->handle);
    while (count) Py_DECREF(pairs[--count]);
    PyMem_Free(pairs);
    return 0;
}

static PyObject *arena_clear(Arena *self, PyObject *none) {
    (void)none;
    arena_empty(self);
    Py_RETURN_NONE;
}

static PyObject *arena_compact(Arena *self, PyObject *none) {
    (void)none;
    topscedar_arena_compact(&self->handle);
    self->shape++;
    Py_RETURN_NONE;
}

/* _become(other): an empty arena becomes a copy of another, with its tokens and pairs. */
static PyObject *arena_become(Arena *self, PyObject *object) {
    Arena *other = (Arena *)object;
    if (!PyObject_TypeCheck(object, (PyTypeObject *)arena_type) || arena_length(self)) {
        PyErr_SetString(PyExc_TypeError, "an empty arena becomes another arena");
        return NULL;
    }
    struct topscedar_arena copy = TOPSCEDAR_ARENA_INIT;
    struct topscedar_entry entry, batch[BATCH];
    uint8_t status = topscedar_arena_clone(&other->handle, &copy);
    if (status) return failed(status, Py_None);
    struct topscedar_pointer rest = {0, 0};
    if (topscedar_arena_first(&copy, &entry) == TOPSCEDAR_OK) rest = entry.pointer;
    while (rest.index) {
        size_t filled = 0;
        topscedar_arena_entries_from(&copy, rest, batch, BATCH, &filled, &rest);
        fetch_pairs(batch, filled);
        for (size_t i = 0; i < filled; i++) Py_INCREF(pair_of(&batch[i]));
    }
    PyObject *old = self->encode;
    topscedar_arena_close(&self->handle);
    self->handle = copy; /* moved, while no call uses it */
    self->kind = other->kind;
    self->may_be_cyclic = other->may_be_cyclic;
    self->shape++;
    Py_XINCREF(other->encode);
    self->encode = other->encode;
    Py_XDECREF(old);
    Py_RETURN_NONE;
}

/* The words of the first entries whose key is at most `until`, at most so many: where they are, and how many. NULL without memory. */
static uint64_t *due_words(Arena *self, int64_t until, size_t most, size_t *count) {
    struct topscedar_entry entry, batch[BATCH];
    struct topscedar_pointer rest = {0, 0};
    size_t room = 0, length = (size_t)arena_length(self);
    uint64_t *words = PyMem_Malloc(1);
    *count = 0;
    if (topscedar_arena_first(&self->handle, &entry) == TOPSCEDAR_OK) rest = entry.pointer;
    while (words && rest.index && *count < most) {
        size_t filled = 0;
        topscedar_arena_entries_from(&self->handle, rest, batch, BATCH, &filled, &rest);
        if (room < *count + filled) {
            /* twice as much, but no more than there are entries */
            room = length < BATCH || length / 2 < *count + filled ? length : 2 * (*count + filled);
            uint64_t *more = PyMem_Realloc(words, room * sizeof *words);
            if (!more) PyMem_Free(words);
            if (!(words = more)) return NULL;
        }
        for (size_t i = 0; i < filled && *count < most; i++) {
            if (batch[i].key > until) return words;
            words[(*count)++] = batch[i].value;
        }
    }
    return words;
}

/* Removes the first entries, and gives up no pair: they are in a list. */
static void remove_first(Arena *self, int64_t until, size_t count) {
    struct topscedar_entry batch[BATCH];
    if (count) self->shape++;
    if (count == (size_t)arena_length(self)) topscedar_arena_clear(&self->handle);
    else
        while (count) {
            size_t filled = 0;
            topscedar_arena_pop_until(&self->handle, until, batch, count < BATCH ? count : BATCH, &filled);
            count -= filled;
        }
}

/* The list is there before the first entry is removed. Making it can run code that changes entries: then they are looked at again. */
static PyObject *arena_pop_until(Arena *self, PyObject *const *args, Py_ssize_t given) {
    int64_t until;
    Py_ssize_t most = PY_SSIZE_T_MAX;
    if (!takes(given, 1, 2, "pop_until") || key_of(self, args[0], &until)) return NULL;
    if (given == 2 && args[1] != Py_None) {
        most = PyLong_AsSsize_t(args[1]);
        if (most == -1 && PyErr_Occurred()) return NULL;
        if (most < 0) most = 0;
    }
    for (;;) {
        uint64_t shape = self->shape, writes = self->writes;
        size_t count;
        uint64_t *words = due_words(self, until, (size_t)most, &count);
        if (!words) return PyErr_NoMemory();
        PyObject *list = PyList_New((Py_ssize_t)count);
        if (list && shape == self->shape && writes == self->writes) {
            for (size_t i = 0; i < count; i++) LIST_SET(list, (Py_ssize_t)i, (PyObject *)(uintptr_t)words[i]);
            PyMem_Free(words);
            remove_first(self, until, count);
            return list;
        }
        PyMem_Free(words);
        if (!list) return NULL;
        Py_DECREF(list);
    }
}

#include "_iterator.h"

/* From birth to death. */

static PyObject *arena_new(PyTypeObject *type, PyObject *args, PyObject *named) {
    (void)args;
    (void)named;
    Arena *self = (Arena *)PyType_GenericAlloc(type, 0); /* all zero: a closed handle */
    if (!self) return NULL;
    if (topscedar_arena_open_at(&self->handle, topscedar_generation())) {
        Py_DECREF((PyObject *)self);
        return PyErr_NoMemory();
    }
    return (PyObject *)self;
}

/* _use(key): int, float or a function. Only while the arena is empty. */
static PyObject *arena_use(Arena *self, PyObject *encode) {
    if (arena_length(self)) {
        PyErr_SetString(PyExc_ValueError, "the arena has entries");
        return NULL;
    }
    if (!PyCallable_Check(encode)) {
        PyErr_SetString(PyExc_TypeError, "key is int, float or a function");
        return NULL;
    }
    PyObject *old = self->encode;
    self->kind = encode == (PyObject *)&PyLong_Type ? INT_KEYS : encode == (PyObject *)&PyFloat_Type ? FLOAT_KEYS : OTHER_KEYS;
    Py_INCREF(encode);
    self->encode = encode;
    Py_XDECREF(old);
    Py_RETURN_NONE;
}

static PyObject *arena_key_function(Arena *self, void *none) {
    (void)none;
    PyObject *encode = self->encode ? self->encode : (PyObject *)&PyLong_Type;
    Py_INCREF(encode);
    return encode;
}

static int arena_traverse(Arena *self, visitproc visit, void *arg) {
    struct topscedar_entry entry, batch[BATCH];
    size_t filled = 0;
    Py_VISIT(Py_TYPE((PyObject *)self));
    Py_VISIT(self->encode);
    if (!self->may_be_cyclic || topscedar_arena_first(&self->handle, &entry)) return 0;
    for (struct topscedar_pointer rest = entry.pointer; rest.index;) {
        topscedar_arena_entries_from(&self->handle, rest, batch, BATCH, &filled, &rest);
        for (size_t i = 0; i < filled; i++) Py_VISIT(pair_of(&batch[i]));
    }
    return 0;
}

static int arena_collect(Arena *self) {
    PyObject *old = self->encode;
    arena_empty(self);
    self->kind = INT_KEYS;
    self->encode = NULL;
    Py_XDECREF(old);
    return 0;
}

static void arena_drop(Arena *self) {
    PyTypeObject *type = Py_TYPE((PyObject *)self);
    PyObject_GC_UnTrack(self);
    arena_collect(self);
    topscedar_arena_close(&self->handle);
    ((freefunc)PyType_GetSlot(type, Py_tp_free))(self);
    Py_DECREF(type);
}

#define FAST(call) (PyCFunction)(void (*)(void))call, METH_FASTCALL

static PyMethodDef arena_methods[] = {
    {"insert", FAST(arena_insert), "insert(key, value): inserts behind all entries whose key is at most this one, and returns a token."},
    {"insert_unique", FAST(arena_insert_unique), "insert_unique(key, value): the same, or ValueError if an entry has an equal key."},
    {"extend_sorted", FAST(arena_extend_sorted), "extend_sorted(keys, values): inserts pairs in order behind all entries, all of them or none, and returns the list of their tokens."},
    {"_extend", FAST(arena_extend), NULL},
    {"reserve", (PyCFunction)arena_reserve, METH_O, "reserve(count): makes room for so many more entries."},
    {"value", (PyCFunction)arena_value, METH_O, "value(token): the value of an entry, or KeyError."},
    {"key", (PyCFunction)arena_key, METH_O, "key(token): the key of an entry, or KeyError."},
    {"item", (PyCFunction)arena_item, METH_O, "item(token): key and value of an entry, or KeyError."},
    {"is_live", (PyCFunction)arena_is_live, METH_O, "is_live(token): whether a token names an entry."},
    {"set_value", FAST(arena_set_value), "set_value(token, value): replaces the value of an entry, or KeyError."},
    {"rekey", FAST(arena_rekey), "rekey(token, key): gives an entry another key; it goes behind all others whose key is at most that."},
    {"remove", (PyCFunction)arena_remove, METH_O, "remove(token): removes an entry and returns key and value, or KeyError."},
    {"discard", (PyCFunction)arena_discard, METH_O, "discard(token): removes an entry, and returns whether there was one."},
    {"next", (PyCFunction)arena_next, METH_O, "next(token): the entry behind this one, or None."},
    {"previous", (PyCFunction)arena_previous, METH_O, "previous(token): the entry before this one, or None."},
    {"find", (PyCFunction)arena_find, METH_O, "find(key): the first entry with this key, as (token, key, value), or None."},
    {"lower_bound", (PyCFunction)arena_lower_bound, METH_O, "lower_bound(key): the first entry whose key is at least this one, or None."},
    {"upper_bound", (PyCFunction)arena_upper_bound, METH_O, "upper_bound(key): the first entry whose key is greater, or None."},
    {"rank", (PyCFunction)arena_rank, METH_O, "rank(key): how many entries have a smaller key."},
    {"nth", (PyCFunction)arena_nth, METH_O, "nth(index): the entry that has so many entries before it, or None. O(index)."},
    {"first", (PyCFunction)arena_first, METH_NOARGS, "first(): the first entry, as (token, key, value), or None."},
    {"last", (PyCFunction)arena_last, METH_NOARGS, "last(): the last entry, or None."},
    {"pop_first", (PyCFunction)arena_pop_first, METH_NOARGS, "pop_first(): removes the first entry and returns key and value, or None."},
    {"pop_last", (PyCFunction)arena_pop_last, METH_NOARGS, "pop_last(): removes the last entry and returns key and value, or None."},
    {"pop_until", FAST(arena_pop_until), "pop_until(key, count=None): removes the entries whose key is at most this one, at most count, and returns the list of keys and values."},
    {"count", (PyCFunction)arena_count, METH_O, "count(key): how many entries have this key."},
    {"compact", (PyCFunction)arena_compact, METH_NOARGS, "compact(): lays the entries in their order, which makes iteration faster. All tokens are stale then."},
    {"_become", (PyCFunction)arena_become, METH_O, NULL},
    {"clear", (PyCFunction)arena_clear, METH_NOARGS, "clear(): removes all entries."},
    {"_iterate", FAST(arena_iterate), NULL},
    {"_use", (PyCFunction)arena_use, METH_O, NULL},
    {"__reversed__", (PyCFunction)arena_reversed, METH_NOARGS, NULL},
    {NULL, NULL, 0, NULL},
};

static PyGetSetDef arena_getters[] = {
    {"key_function", (getter)arena_key_function, NULL, "int, float, or the function that gives the number of a key", NULL},
    {NULL, NULL, NULL, NULL, NULL},
};

static PyType_Slot arena_slots[] = {
    {Py_tp_new, arena_new}, {Py_tp_dealloc, arena_drop}, {Py_tp_traverse, arena_traverse}, {Py_tp_clear, arena_collect},
    {Py_tp_methods, arena_methods}, {Py_tp_getset, arena_getters}, {Py_tp_iter, arena_iter},
    {Py_mp_length, arena_length}, {Py_mp_subscript, arena_subscript}, {Py_mp_ass_subscript, arena_assign},
    {Py_sq_contains, arena_contains}, {Py_tp_doc, "An ordered arena of Python objects."}, {0, NULL},
};

static PyType_Spec arena_spec = {"topscedar._arena.Arena", sizeof(Arena), 0, Py_TPFLAGS_DEFAULT | Py_TPFLAGS_BASETYPE | Py_TPFLAGS_HAVE_GC, arena_slots};

/* run(script): the exit status of ordrun, and the answer. It shares nothing, so other threads run meanwhile. */
static PyObject *run(PyObject *module, PyObject *script) {
    char *bytes;
    Py_ssize_t length;
    (void)module;
    if (PyBytes_AsStringAndSize(script, &bytes, &length)) return NULL;
    for (size_t room = 4096;;) {
        uint8_t *out = malloc(room);
        size_t whole = 0;
        uint8_t status = 0;
        if (!out) return PyErr_NoMemory();
        Py_BEGIN_ALLOW_THREADS
        status = topscedar_run((const uint8_t *)bytes, (size_t)length, out, room, &whole);
        Py_END_ALLOW_THREADS
        PyObject *result = whole <= room ? Py_BuildValue("(iy#)", status, (char *)out, (Py_ssize_t)whole) : NULL;
        free(out);
        if (whole <= room) return result;
        room = whole;
    }
}

static PyMethodDef functions[] = {
    {"run", (PyCFunction)run, METH_O, "run(script): runs a script on an empty arena; the exit status of ordrun and the answer."},
    {NULL, NULL, 0, NULL},
};

static struct PyModuleDef definition = {PyModuleDef_HEAD_INIT, "topscedar._arena", NULL, -1, functions, NULL, NULL, NULL, NULL};

PyMODINIT_FUNC PyInit__arena(void) {
    PyObject *module = PyModule_Create(&definition);
    PyObject *version = PySys_GetObject("hexversion");
    may_write_pairs = version && PyLong_AsLong(version) < 0x030e0000;
    if (!module || !(arena_type = PyType_FromSpec(&arena_spec)) || !(iterator_type = PyType_FromSpec(&iterator_spec))) return NULL;
    Py_INCREF(arena_type);
    if (PyModule_AddObject(module, "Arena", arena_type)) return NULL;
    return module;
}
