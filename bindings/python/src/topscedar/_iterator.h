/* Iterators over an arena. Part of _arena.c. */

typedef struct {
    PyObject_HEAD
    Arena *arena;
    int what;
    bool is_backward, has_bound;
    int64_t bound; /* the last key to be given */
    uint64_t shape, writes;
    struct topscedar_pointer rest; /* behind the batch */
    size_t filled, given;
    struct topscedar_entry batch[BATCH];
} Iterator;

/* Fills the batch from an entry on. */
static void iterator_fill(Iterator *self, struct topscedar_pointer from) {
    struct topscedar_arena *handle = &self->arena->handle;
    self->given = self->filled = 0;
    self->writes = self->arena->writes;
    self->rest.index = 0;
    (self->is_backward ? topscedar_arena_entries_back_from : topscedar_arena_entries_from)(handle, from, self->batch, BATCH, &self->filled,
                                                                                           &self->rest);
    fetch_pairs(self->batch, self->filled);
}

static PyObject *iterator_next(Iterator *self) {
    Arena *arena = self->arena;
    if (!arena) return NULL;
    if (self->shape != arena->shape) {
        PyErr_SetString(PyExc_RuntimeError, "the arena was changed while it was iterated");
        return NULL;
    }
    if (self->given == self->filled) {
        if (!self->rest.index) goto end;
        iterator_fill(self, self->rest);
        if (self->given == self->filled) goto end;
    }
    struct topscedar_entry *entry = &self->batch[self->given];
    if (self->has_bound && (self->is_backward ? entry->key < self->bound : entry->key > self->bound)) goto end;
    self->given++;
    if (self->writes != arena->writes) topscedar_arena_get(&arena->handle, entry->pointer, entry);
    else if (self->what != VALUES && self->given + AHEAD < self->filled) FETCH(KEY_OF(pair_of(entry + AHEAD)));
    PyObject *pair = pair_of(entry);
    switch (self->what) {
    case KEYS: return held(KEY_OF(pair));
    case VALUES: return held(VALUE_OF(pair));
    case ITEMS: return held(pair);
    default: return entry_out(entry);
    }
end:
    self->arena = NULL;
    Py_DECREF((PyObject *)arena);
    return NULL;
}

static PyObject *iterator_hint(Iterator *self, PyObject *none) {
    (void)none;
    if (!self->arena || self->has_bound) return PyLong_FromLong(0);
    return PyLong_FromSsize_t(arena_length(self->arena));
}

static int iterator_traverse(Iterator *self, visitproc visit, void *arg) {
#if PY_VERSION_HEX >= 0x03090000
    Py_VISIT(Py_TYPE((PyObject *)self));
#endif
    Py_VISIT((PyObject *)self->arena);
    return 0;
}

static int iterator_clear(Iterator *self) {
    PyObject *arena = (PyObject *)self->arena;
    self->arena = NULL;
    Py_XDECREF(arena);
    return 0;
}

static void iterator_drop(Iterator *self) {
    PyTypeObject *type = Py_TYPE((PyObject *)self);
    PyObject_GC_UnTrack(self);
    iterator_clear(self);
    PyObject_GC_Del(self);
    Py_DECREF(type);
}

static PyMethodDef iterator_methods[] = {
    {"__length_hint__", (PyCFunction)iterator_hint, METH_NOARGS, NULL},
    {NULL, NULL, 0, NULL},
};

static PyType_Slot iterator_slots[] = {
    {Py_tp_dealloc, iterator_drop}, {Py_tp_traverse, iterator_traverse}, {Py_tp_clear, iterator_clear},
    {Py_tp_iter, PyObject_SelfIter}, {Py_tp_iternext, iterator_next}, {Py_tp_methods, iterator_methods}, {0, NULL},
};

static PyType_Spec iterator_spec = {"topscedar._arena.Iterator", sizeof(Iterator), 0, Py_TPFLAGS_DEFAULT | Py_TPFLAGS_HAVE_GC, iterator_slots};

/* An iterator from an entry on, or over nothing. */
static PyObject *iterator_new(Arena *arena, int what, bool is_backward, const struct topscedar_entry *from) {
    Iterator *self = PyObject_GC_New(Iterator, (PyTypeObject *)iterator_type);
    if (!self) return NULL;
    Py_INCREF((PyObject *)arena);
    self->arena = arena;
    self->what = what;
    self->is_backward = is_backward;
    self->has_bound = false;
    self->bound = 0;
    self->shape = arena->shape;
    self->writes = arena->writes;
    self->filled = self->given = 0;
    self->rest.index = 0;
    self->rest.generation = 0;
    if (from) self->rest = from->pointer;
    PyObject_GC_Track(self);
    return (PyObject *)self;
}

static PyObject *arena_iter(Arena *self) {
    struct topscedar_entry entry;
    bool is_any = topscedar_arena_first(&self->handle, &entry) == TOPSCEDAR_OK;
    return iterator_new(self, KEYS, false, is_any ? &entry : NULL);
}

static PyObject *arena_reversed(Arena *self, PyObject *none) {
    struct topscedar_entry entry;
    (void)none;
    bool is_any = topscedar_arena_last(&self->handle, &entry) == TOPSCEDAR_OK;
    return iterator_new(self, KEYS, true, is_any ? &entry : NULL);
}

/* _iterate(what, is_backward=False, minimum=None, maximum=None, with_minimum=True, with_maximum=True) */
static PyObject *arena_iterate(Arena *self, PyObject *const *args, Py_ssize_t count) {
    if (!takes(count, 1, 6, "_iterate")) return NULL;
    long what = PyLong_AsLong(args[0]);
    if (what == -1 && PyErr_Occurred()) return NULL;
    bool is_backward = count > 1 && args[1] == Py_True;
    PyObject *minimum = count > 2 && args[2] != Py_None ? args[2] : NULL, *maximum = count > 3 && args[3] != Py_None ? args[3] : NULL;
    bool with_minimum = !(count > 4 && args[4] == Py_False), with_maximum = !(count > 5 && args[5] == Py_False);
    int64_t low = INT64_MIN, high = INT64_MAX;
    bool is_empty = false;
    if (minimum && key_of(self, minimum, &low)) return NULL;
    if (maximum && key_of(self, maximum, &high)) return NULL;
    if (minimum && !with_minimum) {
        if (low == INT64_MAX) is_empty = true;
        else low++;
    }
    if (maximum && !with_maximum) {
        if (high == INT64_MIN) is_empty = true;
        else high--;
    }
    struct topscedar_entry entry;
    uint8_t status;
    if (is_empty || low > high) status = TOPSCEDAR_NOT_FOUND;
    else if (!is_backward) status = minimum ? topscedar_arena_lower_bound(&self->handle, low, &entry) : topscedar_arena_first(&self->handle, &entry);
    else if (!maximum) status = topscedar_arena_last(&self->handle, &entry);
    else {
        /* the last entry whose key is at most `high` */
        status = topscedar_arena_upper_bound(&self->handle, high, &entry);
        status = status == TOPSCEDAR_OK ? topscedar_arena_previous(&self->handle, entry.pointer, &entry) : topscedar_arena_last(&self->handle, &entry);
    }
    Iterator *iterator = (Iterator *)iterator_new(self, (int)what, is_backward, status ? NULL : &entry);
    if (iterator) {
        iterator->has_bound = is_backward ? minimum != NULL : maximum != NULL;
        iterator->bound = is_backward ? low : high;
    }
    return (PyObject *)iterator;
}
